// Messages taken apart: the bytes beside their names.

import { brief, broken, el, wordy } from "./dom.js";

// What is said of the bytes, without the bytes.
const beside = ({ text, hex }) => (text.startsWith(hex) ? text.slice(hex.length).trim() : text);

function row(part) {
  if (part.wrong) return el("tr", { class: "wrong" }, el("td", { colspan: 3 }, `✗ ${part.wrong}`));
  return el(
    "tr",
    { "data-name": part.name, "data-tag": part.tag, "data-hex": part.hex },
    el("td", { class: "bytes" }, part.head ? el("span", { class: "head" }, part.head) : null, brief(part.hex)),
    el("th", { scope: "row" }, broken(part.name ?? "?"), part.tag ? el("span", { class: "tag" }, ` ${part.tag}`) : null),
    el("td", { class: "value" }, part.text == null ? null : wordy(beside(part))),
  );
}

export function message(id, title, parts) {
  return el(
    "section",
    { id, class: "message" },
    el("h3", {}, title),
    el("table", {}, el("thead", {}, el("tr", {}, ...["bytes", "name", "value"].map((name) => el("th", { scope: "col" }, name)))),
      el("tbody", {}, parts.map(row))),
  );
}

// The questions to the crypto provider, each with its answer.
export function questions(asked) {
  if (asked.length === 0) return el("section", { id: "asked" }, el("h3", {}, "Questions to the crypto provider"), el("p", {}, "None."));
  return el(
    "section",
    { id: "asked" },
    el("h3", {}, "Questions to the crypto provider"),
    asked.map(({ parts, answer }) =>
      el("div", { class: "question" }, el("table", {}, el("tbody", {}, parts.map(row))),
        el("p", { class: "answer" }, "Answer ", el("span", { class: "bytes" }, answer ? brief(answer) : "none")))),
  );
}

// How a tap went, in a word with its sign: no colour says it alone.
export function outcome(tap) {
  if (tap.word === null) return { kind: "none", sign: "∅", words: "no response" };
  if (tap.word === "9789") return { kind: "wait", sign: "‖", words: "has to wait" };
  return tap.word.startsWith("90") ? { kind: "accepted", sign: "✓", words: "accepted" } : { kind: "refused", sign: "✗", words: "refused" };
}

// The outcome in a line: what every tap is looked at for.
export function verdict(tap) {
  const how = outcome(tap);
  return [
    el("p", { class: `outcome ${how.kind}`, "data-outcome": how.kind }, `${how.sign} ${how.words}`, tap.word ? ` · ${tap.word} ` : "",
      tap.status ? broken(tap.status) : ""),
    el("p", { class: "meaning" }, tap.meaning),
    tap.verdict === "other"
      ? el("p", { class: "other" }, "✗ other: the recording expects ", el("span", { class: "bytes" }, brief(tap.expected ?? "4, no response")))
      : null,
  ];
}

// The sheet of a card, line by line. A bad line has what it should be beside it.

import { el, fill } from "./dom.js";
import { ask } from "./server.js";

export class Sheet {
  // `made` gets the sheet, the card's texts and its image. `doing` runs what may go wrong.
  constructor(lines, doing, made) {
    this.rows = lines.map(([name, value]) => this.row(name, value));
    this.node = el("details", { id: "sheet", open: true },
      el("summary", {}, "The card's sheet"),
      el("form", { submit: (event) => { event.preventDefault(); doing(() => this.make(made)); } },
        el("p", { class: "hint" }, "pin1 and pin2 are the SHA-256 of the codes, here 000000 and 000. A pause may be left empty."),
        this.rows.map((row) => row.node),
        el("button", { id: "make" }, "Make a fresh card")));
  }

  row(name, value) {
    const input = el("input", { id: `sheet-${name}`, value, spellcheck: "false", autocomplete: "off", "aria-describedby": `wanted-${name}` });
    const wanted = el("span", { id: `wanted-${name}`, class: "bad" });
    return { input, wanted, node: el("div", { class: "row" }, el("label", { for: input.id }, name), input, wanted) };
  }

  get values() {
    return this.rows.map((row) => row.input.value);
  }

  // A sheet that was read elsewhere.
  put(text) {
    const lines = new Map(text.split("\n").map((line) => line.split("\t")));
    for (const row of this.rows) row.input.value = lines.get(row.input.id.slice("sheet-".length)) ?? "";
  }

  async make(made) {
    const answer = await ask("sheet", { values: this.values });
    const bad = new Map((answer.bad ?? []).map(({ line, wanted }) => [line - 1, `✗ line ${line} has to be ${wanted}`]));
    this.rows.forEach((row, at) => {
      fill(row.wanted, bad.get(at) ?? "");
      row.input.setAttribute("aria-invalid", bad.has(at));
    });
    if (bad.size) this.rows[[...bad.keys()][0]].input.focus();
    else {
      this.node.open = false;
      await made(answer);
    }
  }
}

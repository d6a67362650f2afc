// Plots over the taps, drawn as far as the lesson has come.

import { el, fill, shape } from "./dom.js";

const WIDTH = 400, HEIGHT = 120, LEFT = 84, RIGHT = 10, TOP = 8, BOTTOM = 18;
const RANKS = 7; // so many values stand one above the other, each on a line of its own: a counter's order matters, not its distance

const across = (tap, taps) => LEFT + ((WIDTH - LEFT - RIGHT) * tap) / Math.max(taps, 1);

// Where values stand, and which of them are written beside the axis.
function scale(values) {
  const ranks = [...new Set(values)].sort((one, other) => one - other);
  const room = HEIGHT - TOP - BOTTOM;
  if (ranks.length <= RANKS) {
    const step = room / Math.max(ranks.length - 1, 1);
    return { ticks: ranks, up: (value) => HEIGHT - BOTTOM - step * ranks.indexOf(value) };
  }
  const [least, most] = [ranks[0], ranks.at(-1)];
  return { ticks: [least, most], up: (value) => HEIGHT - BOTTOM - (room * (value - least)) / (most - least) };
}

// A line of steps. Of the taps that fall on one point of the screen the lowest and the highest are enough.
function steps(line, taps, up) {
  let path = "", column = -1, least = 0, most = 0, last = 0;
  const close = () => (path += `V${up(least)}V${up(most)}V${up(last)}`);
  line.forEach((value, tap) => {
    const at = Math.round(across(tap, taps));
    if (at !== column) {
      if (column >= 0) close();
      path += column < 0 ? `M${at} ${up(value)}` : `H${at}`;
      [column, least, most] = [at, value, value];
    }
    [least, most, last] = [Math.min(least, value), Math.max(most, value), value];
  });
  close();
  return path;
}

const dots = (marks) => marks.map(([x, y]) => `M${x} ${y}h0`).join("");
const crosses = (marks) => marks.map(([x, y]) => `M${x - 4} ${y - 4}l8 8m0-8l-8 8`).join("");

// A plot: the line's value after each tap from 0 on, and marks of [tap, value, whether it was taken].
function plot({ name, line, marks, taps, written, says }) {
  const { ticks, up } = scale([...line, ...marks.map(([, value]) => value)]);
  const places = (taken) => marks.filter((mark) => mark[2] === taken).map(([tap, value]) => [across(tap, taps), up(value)]);
  const now = across(line.length - 1, taps);
  return el("figure", { class: "plot", "data-plot": name, "data-value": line.at(-1) },
    el("figcaption", {}, el("strong", {}, name), ` ${says}`),
    shape("svg", { viewBox: `0 0 ${WIDTH} ${HEIGHT}`, role: "img", "aria-label": `${name}: ${says}` },
      ticks.map((value) => [
        shape("path", { class: "grid", d: `M${LEFT} ${up(value)}H${WIDTH - RIGHT}` }),
        shape("text", { class: "tick", x: LEFT - 6, y: up(value) + 4, "text-anchor": "end" }, written(value)),
      ]),
      shape("text", { class: "tick", x: LEFT, y: HEIGHT - 4 }, "0"),
      shape("text", { class: "tick", x: WIDTH - RIGHT, y: HEIGHT - 4, "text-anchor": "end" }, `tap ${taps}`),
      shape("path", { class: "now", d: `M${now} ${TOP}V${HEIGHT - BOTTOM}` }),
      shape("path", { class: "line", d: steps(line, taps, up) }),
      shape("path", { class: "taken", d: dots(places(true)) }),
      shape("path", { class: "left", d: crosses(places(false)) })));
}

const hex = (value) => value.toString(16).toUpperCase().padStart(8, "0");

// The numbers of the card before the first tap, which its texts have.
const begun = (card) => ({
  stored: Number(card["issuer data counter"]), remaining: Number(card.Remaining), hashes: Number(card.Signed_Hashes),
});

// All taps up to this one; of the one that is being guessed only what is sent.
export function plots(node, card, taps, at, guessed) {
  const shown = taps.slice(0, at);
  const line = (name) => [begun(card)[name], ...shown.map((tap) => tap.numbers[name])];
  const marks = shown.flatMap((tap, place) => (tap.numbers.sent === null ? [] : [[place + 1, tap.numbers.sent, tap.word === "9000"]]));
  const sent = guessed ? taps[at].numbers.sent : null;
  if (sent !== null) marks.push([at + 1, sent, false]);
  const stored = line("stored"), latest = marks.at(-1);
  const counters = `— stored ${hex(stored.at(-1))}${latest ? ` ${latest[2] ? "● sent and stored" : "✕ sent"} ${hex(latest[1])}` : ""}`;
  const plain = (value) => String(value);
  fill(node,
    plot({ name: "Issuer_Data_Counter", line: stored, marks, taps: taps.length, written: hex, says: counters }),
    plot({ name: "Remaining", line: line("remaining"), marks: [], taps: taps.length, written: plain, says: plain(line("remaining").at(-1)) }),
    plot({ name: "Signed_Hashes", line: line("hashes"), marks: [], taps: taps.length, written: plain, says: plain(line("hashes").at(-1)) }));
}

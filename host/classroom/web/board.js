// The board: one tap, told. What was sent, asked and answered, the checks, the wait, the card before and after, and the plots.

import { broken, el, fill, wordy } from "./dom.js";
import { message, outcome, questions, verdict } from "./parts.js";
import { plots } from "./plots.js";

const BEHIND_WAIT = 10; // the card makes its holder wait when this check is passed
const BEHIND_QUESTIONS = 12; // and asks its questions when this one is; the last is an answer's
const FIRST_LIVING = "Status"; // of the card's values: those before it come from the sheet
const SIGNS = { passed: "✓", failed: "✗", later: "·" };

// ---- the checks ----

function stateOf(tap, number) {
  if (tap === null) return "later";
  if (tap.word === null) return number <= BEHIND_QUESTIONS && tap.asked.some((one) => one.parts.length) ? "passed" : "later";
  if (tap.word === "9789") return number <= BEHIND_WAIT ? "passed" : "later";
  if (tap.check === 0 || number < tap.check) return "passed";
  return number === tap.check ? "failed" : "later";
}

function checks(words, tap) {
  const lead = tap?.check ? `Refused by check ${tap.check}` : tap?.word === "9789" ? "The card waits, behind check 10" : "Checks";
  return el("section", { id: "checks" }, el("h3", {}, lead),
    el("ol", {}, words.map(({ name, reason }, at) => {
      const state = stateOf(tap, at + 1);
      return el("li", { "data-check": at + 1, "data-state": state },
        el("span", { class: "sign", "aria-label": { passed: "passed", failed: "refused here", later: "not reached" }[state], role: "img" }, SIGNS[state]),
        ` ${at + 1}. ${name}${state === "failed" ? `: ${reason}` : ""}`);
    })));
}

// ---- the wait ----

// The seconds left of those at the first sending of these bytes; null where this tap is no part of a wait. Without a response the seconds
// stay as they were.
function waitOf(taps, at) {
  const isHeld = (place) => place >= 0 && taps[place].numbers.seconds > 0 && taps[place].request === taps[at].request;
  let first = at;
  while (isHeld(first - 1) && taps[first - 1].numbers.seconds >= taps[first].numbers.seconds) first -= 1;
  if (!isHeld(first)) return null;
  return { left: taps[at].numbers.seconds, of: taps[first].numbers.seconds };
}

function waiting(taps, at) {
  const wait = waitOf(taps, at);
  if (!wait) return null;
  const said = wait.left ? `${wait.left} of ${wait.of} ${wait.of === 1 ? "second" : "seconds"} left: the same bytes again` : "The wait is over";
  return el("section", { id: "wait", "data-left": wait.left, "data-of": wait.of },
    el("label", {}, `${said} `, el("progress", { max: wait.of, value: wait.left }, `${wait.left} of ${wait.of}`)));
}

// ---- the card ----

function value(name, text, change) {
  const cells = change
    ? [el("td", { class: "before" }, wordy(change[0])), el("td", { class: "after" }, el("span", { class: "sign" }, "→ "), wordy(change[1]))]
    : [el("td", { colspan: 2 }, wordy(text))];
  return el("tr", { "data-name": name, "data-changed": Boolean(change) }, el("th", { scope: "row" }, broken(name)), cells);
}

// Before the first tap, and before one that is to be guessed, there is nothing that it changed.
function heading(changed) {
  const count = changed ? Object.keys(changed).length : -1;
  return ["The card", "Card: nothing changed", "Card: 1 value changed"][count + 1] ?? `Card: ${count} values changed`;
}

function cardTable(values, told) {
  const changed = told ?? {};
  const names = [...values.keys()];
  const living = names.indexOf(FIRST_LIVING);
  const table = (wanted) => el("table", {}, el("tbody", {}, names.filter(wanted).map((name) => value(name, values.get(name), changed[name]))));
  const isRest = (name) => names.indexOf(name) >= living && !changed[name];
  const ofSheet = (name) => names.indexOf(name) < living && !changed[name];
  return el("section", { id: "card" }, el("h3", {}, heading(told)),
    table((name) => changed[name]),
    table(isRest),
    el("details", {}, el("summary", {}, "from its sheet"), table(ofSheet)));
}

// ---- all of it ----

// A play: the words of its page, the card's texts before the first tap, the taps as told so far, and how it ended.
export class Play {
  constructor() {
    this.page = null;
    this.card = {};
    this.taps = [];
    this.end = null;
    this.values = new Map();
    this.at = 0;
  }

  // An object as the server tells it: the page, the card, a tap, the end.
  take(told) {
    if (told.page) this.page = told.page;
    else if (told.card) {
      this.card = told.card;
      this.values = new Map(Object.entries(told.card));
    } else if (told.tap) this.taps.push(told);
    else this.end = told;
  }

  // The card's values after this many taps, by what each tap in between has changed.
  valuesAt(at) {
    for (; this.at < at; this.at += 1) this.change(this.taps[this.at], 1);
    for (; this.at > at; this.at -= 1) this.change(this.taps[this.at - 1], 0);
    return this.values;
  }

  change(tap, side) {
    for (const [name, both] of Object.entries(tap.changed)) this.values.set(name, both[side]);
  }

}

export class Board {
  constructor(words) {
    this.words = words;
    this.middle = el("div", { class: "column", id: "messages", tabindex: 0, "aria-label": "messages" });
    this.side = el("div", { class: "column", id: "state", tabindex: 0, "aria-label": "checks and card" });
    this.bottom = el("div", { id: "plots" });
    this.banner = el("div", { id: "outcome" });
  }

  // Tap `at`, from 1 on; 0 is the card before the first. Where it is to be guessed, only what is sent is shown.
  show(play, at, guessed = false) {
    const tap = at ? play.taps[at - 1] : null;
    const answered = tap && !guessed;
    fill(this.middle, tap ? message("request", "Request", tap.sent) : null,
      answered ? [questions(tap.asked), tap.got.length ? message("response", "Response", tap.got) : null] : null);
    fill(this.side, checks(this.words, answered ? tap : null),
      cardTable(play.valuesAt(guessed ? at - 1 : at), answered ? tap.changed : null));
    fill(this.banner, answered ? [verdict(tap), waiting(play.taps, at - 1)] : null);
    this.plot(play, at, guessed);
    this.middle.scrollTop = this.side.scrollTop = 0;
  }

  plot(play, at, guessed) {
    plots(this.bottom, play.card, play.taps, guessed ? at - 1 : at, guessed);
  }
}

export const summary = (tap, number) => 
  `${number} ${tap.command ?? "?"} ${outcome(tap).sign} ${tap.word ?? "4"} ${outcome(tap).words}${tap.verdict === "other" ? ", other" : ""}`;

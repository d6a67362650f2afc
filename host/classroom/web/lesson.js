// The lesson: a play stepped through, tap by tap, with the trainer's words.

import { Board } from "./board.js";
import { broken, el, fill, prose } from "./dom.js";
import { Guess } from "./guess.js";
import { outcome } from "./parts.js";

const KEYS = { ArrowRight: "forward", ArrowLeft: "back", Home: "first", End: "last" };
const TYPED = "input:not([type=checkbox]):not([type=radio]), textarea, select";

export class Lesson {
  // `moved` is told the tap that is shown.
  constructor(play, checks, moved = () => {}) {
    Object.assign(this, { page: play.page, play, moved, at: 0, open: 0, hidden: false });
    this.board = new Board(checks);
    this.guess = new Guess(() => this.reveal());
    this.place = el("output", { id: "place", "aria-live": "polite" });
    this.sender = el("section", {});
    this.told = el("section", { id: "told" });
    this.node = this.laidOut();
    this.show();
  }

  laidOut() {
    const button = (id, sign, words) => el("button", { id, type: "button", title: words, "aria-label": words, click: () => this[id]() }, sign);
    this.buttons = { first: button("first", "|◀", "First (Home)"), back: button("back", "◀", "Back (left arrow)"),
      forward: button("forward", "▶", "Forward (right arrow)"), last: button("last", "▶|", "Last (End)") };
    const { first, back, forward, last } = this.buttons;
    this.asks = el("input", { type: "checkbox", id: "ask-first" });
    return el("article", { id: "lesson" },
      el("header", { class: "bar" },
        el("div", { class: "titles" }, el("h2", {}, this.page.title), el("p", { class: "question" }, this.page.question)),
        el("nav", { "aria-label": "taps" }, first, back, this.place, forward, last),
        el("label", {}, this.asks, " Ask first")),
      el("div", { class: "columns" },
        el("div", { class: "column", id: "words", tabindex: 0, "aria-label": "the trainer's words" }, this.sender, this.board.banner, this.told, this.guess.node),
        this.board.middle, this.board.side),
      this.board.bottom);
  }

  get count() {
    return this.play.taps.length;
  }

  // ---- steps ----

  forward() {
    if (this.hidden) return this.reveal();
    if (this.at < this.count) this.go(this.at + 1);
  }

  back() {
    if (this.at > 0) this.go(this.at - 1);
  }

  first() {
    this.go(0);
  }

  last() {
    this.go(this.count);
  }

  // A tap that was answered once stays so; one that is skipped is not asked.
  go(at) {
    const next = at === this.at + 1 && at > this.open;
    this.at = Math.max(0, Math.min(at, this.count));
    this.hidden = next && this.asks.checked;
    if (!this.hidden) this.open = Math.max(this.open, this.at);
    this.guess.clear();
    this.show();
    if (this.hidden) this.guess.ask();
    this.moved(this.at);
  }

  reveal() {
    this.hidden = false;
    this.open = Math.max(this.open, this.at);
    this.show();
    this.guess.judge(this.play.taps[this.at - 1]);
    this.buttons[this.at < this.count ? "forward" : "back"].focus();
  }

  // True where the key was a step.
  key(event) {
    const step = KEYS[event.key];
    if (!step || event.altKey || event.ctrlKey || event.metaKey || event.target.matches?.(TYPED)) return false;
    if (event.target.matches?.("[type=radio]") && step !== "first" && step !== "last") return false;
    this[step]();
    return true;
  }

  // ---- what is shown ----

  get tap() {
    return this.at ? this.play.taps[this.at - 1] : null;
  }

  show() {
    this.tell();
    this.board.show(this.play, this.at, this.hidden);
    this.stand();
  }

  // More taps may have come.
  grown() {
    this.stand();
    if (this.play.end) this.board.plot(this.play, this.at, this.hidden);
  }

  // The place among the taps.
  stand() {
    const how = this.tap && !this.hidden ? `: ${outcome(this.tap).sign} ${outcome(this.tap).words}` : "";
    const more = this.play.end ? "" : "…";
    fill(this.place, this.at ? `Tap ${this.at} of ${this.count}${more}${how}` : `Before the first of ${this.count}${more}`);
    Object.assign(this.node.dataset, { tap: this.at, taps: this.count, hidden: this.hidden });
    this.buttons.first.disabled = this.buttons.back.disabled = this.at === 0;
    this.buttons.last.disabled = this.at === this.count;
    this.buttons.forward.disabled = this.at === this.count && !this.hidden;
  }

  tell() {
    const tap = this.tap;
    const said = this.page.taps[this.at];
    const paragraph = (runs) => el("p", {}, prose(runs));
    fill(this.sender,
      said?.sender ? el("p", { id: "sender" }, `${said.sender} sends`) : null,
      tap ? el("p", { class: "command" }, broken(tap.command ?? "no command of this card")) : null);
    fill(this.told,
      this.at === 0 ? this.page.introduction.map(paragraph) : null,
      said && !this.hidden ? [said.above.map(paragraph), said.title.length ? el("h3", {}, prose(said.title)) : null, paragraph(said.said)] : null,
      this.at === this.count ? this.ended() : null);
  }

  // At the last tap, how the play ended.
  ended() {
    const end = this.play.end;
    if (!end) return null;
    if (end.line) return el("p", { class: "bad", role: "alert" }, `Line ${end.line} is bad: ${end.reason}`);
    return end.other ? el("p", { class: "other" }, `${end.other} of ${end.taps} answered otherwise than the recording expects.`) : null;
  }
}

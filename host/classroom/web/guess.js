// A class is asked first: what will the card do, and what will Remaining be?

import { el, fill } from "./dom.js";
import { outcome } from "./parts.js";

const KINDS = { accepted: "accepted", refused: "refused", wait: "has to wait" };

export class Guess {
  constructor(reveal) {
    this.node = el("section", { id: "guess" });
    this.reveal = reveal;
    this.asked = this.right = 0;
  }

  clear() {
    fill(this.node);
  }

  // The form; what was guessed is kept for `judge`.
  ask() {
    const choice = ([kind, words]) => el("label", {}, el("input", { type: "radio", name: "guess", value: kind }), ` ${words}`);
    const remaining = el("input", { id: "guess-remaining", type: "number", min: 0, inputmode: "numeric" });
    const form = el("form", { submit: (event) => {
      event.preventDefault();
      this.made = { kind: new FormData(form).get("guess"), remaining: remaining.value };
      this.reveal();
    } },
      el("fieldset", {}, el("legend", {}, "What will the card do?"), Object.entries(KINDS).map(choice)),
      el("label", {}, "Remaining afterwards ", remaining),
      el("button", { id: "reveal" }, "Show the answer"));
    this.made = null;
    fill(this.node, form);
    form.querySelector("input").focus();
  }

  // What was said beside what came.
  judge(tap) {
    const came = outcome(tap).kind;
    const lines = [];
    const hold = (said, is, words) => {
      this.asked += 1;
      this.right += said === is;
      lines.push(el("li", { "data-right": said === is }, said === is ? `✓ ${words}: right` : `✗ ${words}: it is ${KINDS[is] ?? is}`));
    };
    if (this.made?.kind && KINDS[came]) hold(this.made.kind, came, KINDS[this.made.kind]);
    if (this.made?.remaining) hold(Number(this.made.remaining), tap.numbers.remaining, `Remaining ${this.made.remaining}`);
    if (lines.length) fill(this.node, el("h3", {}, `The guess (${this.right} of ${this.asked} right so far)`), el("ul", { id: "guessed" }, lines));
    else this.clear();
  }
}

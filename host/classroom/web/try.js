// Try it: a card of one's own. The page keeps it: its sheet, its taps and its image.

import { Board, Play, summary } from "./board.js";
import { el, fill } from "./dom.js";
import { Form } from "./form.js";
import { ask, told } from "./server.js";
import { Sheet } from "./sheet.js";

const MOST_TAPS = 10000; // of a recording
const SHEET = 14; // lines, and one more where it has a pause

const lineOf = (tap) => `${[tap.request, tap.draw, tap.answers, tap.response ?? "4"].join("\t")}\n`;

// The lines before the first tap.
function sheetOf(recording) {
  const lines = new TextDecoder().decode(recording).split("\n");
  return lines.slice(0, lines[SHEET].startsWith("pause\t") ? SHEET + 1 : SHEET).map((line) => `${line}\n`).join("");
}

export class Try {
  // `trouble` is told what went wrong.
  constructor(words, trouble) {
    this.trouble = trouble;
    this.board = new Board(words.checks);
    this.sheet = new Sheet(words.sheet, (act) => this.doing(act), (made) => this.begin(made));
    this.form = new Form();
    this.longest = words.longest;
    // The card stands after tap `at` of the play; `image` is that card.
    Object.assign(this, { play: new Play(), text: "", at: 0, image: null, moved: null, aside: [], isSaved: true, busy: false });
    this.node = this.laidOut();
    fill(this.board.middle, el("p", { class: "hint" }, "Make a card from the sheet, or open a recording. Then choose a command, and send it."));
    addEventListener("beforeunload", (event) => this.isSaved || event.preventDefault());
  }

  laidOut() {
    const button = (id, words, act) => el("button", { id, type: "button", click: () => this.doing(act) }, words);
    this.history = el("select", { id: "history", size: 8, "aria-label": "history", change: () => (this.moved = this.move(Number(this.history.value))) });
    this.sends = el("button", { id: "send" }, "Send");
    this.again = button("again", "The same bytes again", () => this.sendAgain());
    this.waits = button("wait-out", "Wait it out", () => this.waitOut());
    this.saves = button("save", "Save", () => this.save());
    this.opens = el("input", { id: "open", type: "file", change: () => this.doing(() => this.openFile()) });
    this.saves.disabled = true;
    this.note = el("p", { id: "note", "aria-live": "polite" });
    this.left = el("div", { id: "aside" });
    const submit = (event) => { event.preventDefault(); this.doing(() => this.send()); };
    this.sending = el("form", { id: "sending", hidden: true, submit }, this.form.node, el("p", { class: "buttons" }, this.sends, this.again, this.waits));
    return el("article", { id: "try" },
      el("div", { class: "columns" },
        el("div", { class: "column", id: "desk" }, this.sheet.node, this.sending),
        el("div", { class: "column" }, this.board.banner, this.board.middle),
        el("div", { class: "column" },
          el("section", { id: "past" }, el("h3", {}, "History"), this.history, this.note, this.left,
            el("p", { class: "buttons" }, this.saves, el("label", {}, "Open a recording ", this.opens))),
          this.board.side)),
      this.board.bottom);
  }

  // One thing at a time; what goes wrong is said, and nothing is lost by it.
  async doing(act) {
    if (this.busy) return;
    this.busy = true;
    this.node.setAttribute("aria-busy", "true");
    try {
      this.trouble("");
      await this.moved;
      await act();
    } catch (why) {
      this.trouble(why.message);
    }
    this.busy = false;
    this.node.removeAttribute("aria-busy");
  }

  // ---- a card ----

  // A fresh card takes the place of the one that is there; that one's taps can be taken back.
  async begin({ sheet, card, image }) {
    this.setAside(0);
    this.text = sheet;
    this.play = new Play();
    this.play.take({ card });
    await this.stand(0, image);
  }

  // The history is another now, and the card stands after this tap; it may be another card.
  async stand(at, image, isOther = true) {
    this.sending.hidden = false;
    this.list();
    this.show(at);
    this.image = image;
    await (isOther ? this.form.of(image) : this.form.now(image));
  }

  // The card goes to where it stood after this tap. Of several moves the last counts.
  async move(at) {
    this.show(at);
    try {
      const image = await this.imageAt(at);
      if (this.at === at) await this.form.now((this.image = image));
    } catch (why) {
      this.trouble(why.message);
    }
  }

  // The card after this tap is found by playing so far again.
  async imageAt(at) {
    let last = null;
    await told("recording", this.recording(at), (one) => (last = one));
    return last.image;
  }

  list() {
    const entry = (tap, place) => el("option", { value: place + 1 }, summary(tap, place + 1));
    fill(this.history, el("option", { value: 0 }, "0 the fresh card"), this.play.taps.map(entry));
  }

  show(at) {
    this.at = at;
    this.history.value = String(at);
    const last = this.play.taps.length;
    const tap = at ? this.play.taps[at - 1] : null;
    this.again.disabled = !tap;
    this.waits.disabled = tap?.word !== "9789";
    this.saves.disabled = false;
    fill(this.note, at < last ? `The card is as after tap ${at}. What is sent now goes on from there, and what came after it can be taken back.` : "");
    fill(this.left, this.aside.map((one, place) => el("button", { type: "button", click: () => this.doing(() => this.takeBack(place)) }, one.words)));
    Object.assign(this.node.dataset, { tap: at, taps: last });
    this.board.show(this.play, at);
  }

  // ---- taps ----

  async send() {
    const request = await this.form.ready();
    if (request) await this.tap(request);
  }

  async sendAgain() {
    await this.tap(this.play.taps[this.at - 1].request);
  }

  async waitOut() {
    while (this.play.taps[this.at - 1].word === "9789") await this.sendAgain();
  }

  // The tap follows the one at which it was sent, whatever the user looks at meanwhile.
  async tap(request) {
    const { at, image } = this;
    if (at >= MOST_TAPS) throw new Error(`a recording has at most ${MOST_TAPS} taps: save it, and make a fresh card`);
    const answer = await ask("tap", { image, request });
    this.setAside(at);
    this.play.taps.push({ ...answer.tap, tap: at + 1 });
    this.isSaved = false;
    await this.stand(at + 1, answer.image, false);
  }

  // ---- what was left behind ----

  setAside(at) {
    const { play, text } = this;
    const taps = play.taps.length;
    if (taps === at) return;
    const words = at === 0 ? `the card with ${taps} tap${taps === 1 ? "" : "s"}` : at + 1 === taps ? `tap ${taps}` : `taps ${at + 1} to ${taps}`;
    this.aside.push({ play, text, words: `Take back ${words}` });
    this.play = new Play();
    this.play.take({ card: play.card });
    this.play.taps = play.taps.slice(0, at);
  }

  async takeBack(place) {
    const [one] = this.aside.splice(place, 1);
    this.setAside(0);
    Object.assign(this, { play: one.play, text: one.text });
    this.sheet.put(this.text);
    const at = this.play.taps.length;
    await this.stand(at, await this.imageAt(at));
  }

  // ---- recordings ----

  recording(taps) {
    return this.text + this.play.taps.slice(0, taps).map(lineOf).join("");
  }

  save() {
    const address = URL.createObjectURL(new Blob([this.recording(this.play.taps.length)], { type: "text/plain" }));
    const link = el("a", { href: address, download: "card.rec" });
    document.body.append(link);
    link.click();
    link.remove();
    setTimeout(() => URL.revokeObjectURL(address), 60000);
    this.isSaved = true;
  }

  async openFile() {
    const [file] = this.opens.files;
    if (!file) return;
    if (file.size > this.longest) throw new Error(`${file.name} has more than ${this.longest} bytes, and no recording has`);
    const play = new Play();
    const bytes = await file.arrayBuffer();
    this.opens.value = ""; // so that the same file can be chosen again
    let image = null;
    await told("recording", bytes, (one) => {
      play.take(one);
      image = one.image ?? image;
    });
    if (image === null) throw new Error(`${file.name}: line ${play.end.line} is bad: ${play.end.reason}`);
    this.setAside(0);
    Object.assign(this, { play, text: sheetOf(bytes), isSaved: true });
    this.sheet.put(this.text);
    await this.stand(play.taps.length, image);
    if (play.end.other) this.trouble(`${file.name}: ${play.end.other} of ${play.taps.length} taps answered otherwise than it expects.`);
    if (play.end.line) this.trouble(`${file.name}: line ${play.end.line} is bad: ${play.end.reason}. What stands before it was played.`);
  }
}

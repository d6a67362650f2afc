// A command as a form, or a request in hex; either is shown taken apart before it is sent.

import { el, fill } from "./dom.js";
import { message } from "./parts.js";
import { ask } from "./server.js";

const TIMES = ["left out", "once", "twice"];
const GIVEN = new Set(["own", "next", "issuer"]); // ways that need nothing typed
const PAUSE = 120; // milliseconds after the last key, before the request is made anew

export class Form {
  constructor() {
    this.request = null;
    this.turn = 0;
    this.commands = el("select", { id: "command", change: () => this.choose() });
    this.fields = el("div", { id: "fields" });
    this.raw = el("textarea", { id: "raw", rows: 4, spellcheck: "false", input: () => this.soon() });
    this.asHex = el("input", { type: "checkbox", id: "as-hex", change: () => this.turnOver() });
    this.wrong = el("p", { class: "bad", id: "request-wrong", role: "alert" });
    this.preview = el("div", { id: "preview" });
    this.hexRow = el("label", { hidden: true }, "Request in hex", this.raw);
    this.node = el("section", { id: "form" },
      el("div", { class: "row" }, el("label", { for: "command" }, "Command"), this.commands, el("label", {}, this.asHex, " as hex")),
      this.fields, this.hexRow, this.wrong, this.preview);
  }

  // The forms for a card.
  async of(image) {
    this.image = image;
    this.forms = await ask("forms", { image });
    const chosen = this.commands.value;
    fill(this.commands, this.forms.map((form) => el("option", { value: form.ins, selected: form.ins === chosen }, `${form.command} ${form.ins}`)));
    await this.choose();
  }

  // The same card after another tap: what was typed stays.
  async now(image) {
    this.image = image;
    await this.make();
  }

  choose() {
    const form = this.forms.find((one) => one.ins === this.commands.value);
    this.rows = form.fields.map((field, at) => this.row(field, `field-${at}`));
    this.rows.push(this.extra(`field-${form.fields.length}`));
    fill(this.fields, this.rows.map((row) => row.node));
    return this.make();
  }

  // ---- fields ----

  row(field, id) {
    const times = el("select", { "aria-label": `${field.name}: how often`, input: () => this.soon() },
      TIMES.map((words, at) => el("option", { value: at, selected: at === field.times }, words)));
    const way = el("select", { "aria-label": `${field.name}: given as`, input: () => { show(); this.soon(); } },
      field.ways.map(([name, words]) => el("option", { value: name }, words)));
    const wide = field.ways[0][0] === "texts";
    const value = el(wide ? "textarea" : "input", { id, rows: wide ? 5 : null, spellcheck: "false", autocomplete: "off", input: () => this.soon() });
    value.value = field.value;
    const wrong = el("span", { class: "bad" });
    const show = () => (value.hidden = GIVEN.has(way.value));
    show();
    return { wrong, given: () => ({ tag: field.tag, times: Number(times.value), way: way.value, value: value.value }),
      node: el("div", { class: "row", "data-tag": field.tag }, el("label", { for: id }, field.name, el("span", { class: "tag" }, ` ${field.tag}`)),
        times, way, value, wrong) };
  }

  // A field that the command need not know.
  extra(id) {
    const tag = el("input", { id: "extra-tag", size: 2, maxlength: 2, "aria-label": "tag of another field", input: () => this.soon() });
    tag.value = "7F";
    const row = this.row({ tag: "", name: "another field", times: 0, ways: [["hex", "hex"]], value: "00" }, id);
    row.node.querySelector("label").after(tag);
    return { ...row, given: () => ({ ...row.given(), tag: tag.value }) };
  }

  // ---- the request ----

  turnOver() {
    this.hexRow.hidden = !this.asHex.checked;
    this.fields.hidden = this.asHex.checked;
    if (this.asHex.checked && this.request) this.raw.value = this.request;
    return this.make();
  }

  soon() {
    clearTimeout(this.timer);
    this.request = null;
    this.timer = setTimeout(() => this.make(), PAUSE);
  }

  // Of several askings only the last counts.
  async make() {
    clearTimeout(this.timer);
    const turn = ++this.turn;
    const [path, given] = this.asHex.checked
      ? ["apart", { request: this.raw.value }]
      : ["request", { image: this.image, ins: this.commands.value, fields: this.rows.map((row) => row.given()) }];
    const answer = await ask(path, given).catch((why) => ({ wrong: { all: why.message } }));
    if (turn !== this.turn) return;
    this.request = answer.request ?? null;
    this.rows.forEach((row, at) => fill(row.wrong, answer.wrong?.[at] ? `✗ ${answer.wrong[at]}` : ""));
    fill(this.wrong, answer.wrong?.all ? `✗ ${answer.wrong.all}` : "");
    fill(this.preview, this.request ? message("to-send", "What will be sent", answer.sent) : null);
    this.node.dataset.request = this.request ?? "";
  }

  // The request as it is shown; null where something is wrong with it.
  async ready() {
    if (this.request === null) await this.make();
    return this.request;
  }
}

// The page: the list of lessons, a lesson, or a card to try, by what stands behind the # of the address.

import { Play } from "./board.js";
import { el, fill } from "./dom.js";
import { Lesson } from "./lesson.js";
import { ask, told } from "./server.js";
import { Try } from "./try.js";

const view = document.getElementById("view");
const troubles = document.getElementById("trouble");

function trouble(why) {
  fill(troubles, why);
  troubles.hidden = !why;
}

class Page {
  constructor(words) {
    this.words = words;
    this.desk = new Try(words, trouble);
    this.lesson = null; // the one that is shown, or was shown last
    this.play = null; // what it plays, or will play
    this.name = null; // of that lesson; empty where it is a file of the user's
  }

  // ---- the list ----

  list() {
    const open = el("input", { id: "open-lesson", type: "file", change: () => this.openFile(open) });
    const entry = ({ name, title, question }) =>
      el("li", {}, el("a", { href: `#lesson/${encodeURIComponent(name)}`, "data-lesson": name },
        el("span", { class: "question" }, question || title), el("span", { class: "title" }, title)));
    return el("section", { id: "lessons" }, el("h2", {}, "Lessons"), el("ul", {}, this.words.lessons.map(entry)),
      el("p", {}, el("label", {}, "Open a recording ", open)));
  }

  // ---- a lesson ----

  // The first view comes with the first taps, the others come while one looks at it.
  async open(name, title, path, recording, at) {
    const play = new Play();
    Object.assign(this, { play, name, lesson: null });
    await told(path, recording, (one) => play.take(one), () => {
      if (this.play !== play || !play.card.CID) return;
      if (this.lesson) this.lesson.grown();
      else this.begin(name, title);
      if (this.lesson.at === 0 && at > 0 && play.taps.length >= at) {
        this.lesson.go(at);
        at = 0;
      }
    });
    if (this.play !== play) return;
    if (play.end?.line) throw new Error(`line ${play.end.line} is bad: ${play.end.reason}${play.taps.length ? ". What stands before it was played." : ""}`);
    if (at > 0) this.lesson.last();
  }

  begin(name, title) {
    this.play.page.title ||= title;
    this.lesson = new Lesson(this.play, this.words.checks, (tap) => history.replaceState(null, "", `#lesson/${encodeURIComponent(name)}/${tap}`));
    fill(view, this.lesson.node);
    if (!name) history.pushState(null, "", "#lesson/");
  }

  async openFile(input) {
    const [file] = input.files;
    if (!file) return;
    trouble("");
    try {
      if (file.size > this.words.longest) throw new Error(`it has more than ${this.words.longest} bytes, and no recording has`);
      const recording = await file.arrayBuffer();
      input.value = ""; // so that the same file can be chosen again
      await this.open("", file.name, "recording", recording, 0);
    } catch (why) {
      trouble(`${file.name}: ${why.message}`);
    }
  }

  // ---- the address ----

  async route() {
    const [where, name = "", at] = decodeURIComponent(location.hash.slice(1)).split("/");
    trouble("");
    if (where === "try") return fill(view, this.desk.node);
    if (where !== "lesson") return fill(view, this.list());
    if (this.lesson && this.name === name) {
      fill(view, this.lesson.node);
      return at === undefined || this.lesson.go(Number(at) || 0);
    }
    if (!name) return location.replace("#lessons");
    fill(view, el("p", {}, "…"));
    await this.open(name, name, `lesson/${encodeURIComponent(name)}`, undefined, Number(at) || 0).catch((why) => trouble(why.message));
  }

  key(event) {
    if (this.lesson && view.contains(this.lesson.node) && this.lesson.key(event)) event.preventDefault();
  }
}

try {
  const page = new Page(await ask("words"));
  addEventListener("hashchange", () => page.route().catch((why) => trouble(why.message)));
  addEventListener("keydown", (event) => page.key(event));
  await page.route();
} catch (why) {
  trouble(why.message);
}

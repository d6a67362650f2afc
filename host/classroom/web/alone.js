// A lesson alone in one file: what was told stands in the page.

import { Play } from "./board.js";
import { Lesson } from "./lesson.js";

const whole = JSON.parse(document.getElementById("told").textContent);
const play = new Play();
for (const one of whole.objects) play.take(one);
const lesson = new Lesson(play, whole.checks);
document.getElementById("view").append(lesson.node);
addEventListener("keydown", (event) => {
  if (lesson.key(event)) event.preventDefault();
});

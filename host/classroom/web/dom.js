// Elements of the page. Whatever a card, a sheet or a recording holds goes in as text: nothing here reads HTML.

const SVG = "http://www.w3.org/2000/svg";

function furnish(made, traits, inside) {
  for (const [name, value] of Object.entries(traits)) {
    if (typeof value === "function") made.addEventListener(name, value);
    else if (value === true) made.setAttribute(name, "");
    else if (value !== false && value != null) made.setAttribute(name, value);
  }
  made.append(...inside.flat(3).filter((one) => one != null));
  return made;
}

export const el = (name, traits = {}, ...inside) => furnish(document.createElement(name), traits, inside);

export const shape = (name, traits = {}, ...inside) => furnish(document.createElementNS(SVG, name), traits, inside);

export function fill(node, ...inside) {
  node.replaceChildren(...inside.flat(3).filter((one) => one != null));
}

// A name of the paper may be broken behind its underscores.
export const broken = (name) => (name.match(/[^_]+_*|_+/g) ?? []).flatMap((part) => [part, el("wbr")]);

// The runs of a lesson's page: words, code, strong words.
export const prose = (runs) => runs.map(([kind, words]) => (kind ? el(kind, {}, words) : words));

// Bytes that are longer than this can be opened: their beginning is enough to know them again. Words may be longer.
const LONG = 40;
const LONG_WORDS = 160;
const BEGINNING = 12;

export function brief(text, most = LONG) {
  if (text.length <= most) return el("span", { class: "full" }, broken(text));
  return el("details", {}, el("summary", {}, `${text.slice(0, BEGINNING)}…`), el("span", { class: "full" }, text));
}

export const wordy = (text) => brief(text, /^[0-9A-F]*$/.test(text) ? LONG : LONG_WORDS);

// What is closed on the screen is open on paper.
let opened = [];
addEventListener("beforeprint", () => {
  opened = [...document.querySelectorAll("details:not([open])")];
  opened.forEach((one) => (one.open = true));
});
addEventListener("afterprint", () => opened.forEach((one) => (one.open = false)));

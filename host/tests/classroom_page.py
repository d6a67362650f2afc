"""What the page of ./classroom shows, read out of it: all of a tap in one go, so that no part of it is of another moment than the rest."""

from rig import check
from selenium.webdriver.common.keys import Keys

from browser import until

# A text that is folded away on the screen has its whole in .full, and so has one that is not.
STATE = r"""
const one = (css, where = document) => where.querySelector(css);
const all = (css, where = document) => [...where.querySelectorAll(css)];
const text = (node) => (node ? node.textContent : null);
const full = (node) => text(node && (one(".full", node) ?? node));
const part = (row) => row.className === "wrong" ? { wrong: text(row) }
  : { name: row.dataset.name ?? null, tag: row.dataset.tag ?? "", hex: row.dataset.hex, label: text(one("th", row)),
      shown: (text(one(".head", row)) ?? "") + full(one(".bytes", row)), value: full(one(".value", row)) };
const parts = (id) => (one(id) ? all("tbody tr", one(id)).map(part) : null);
const question = (node) => ({ parts: all("tr", node).map(part), answer: full(one(".answer .bytes", node)) });
const marks = (figure, kind) => (one(kind, figure).getAttribute("d").match(/M/g) ?? []).length;
const plot = (figure) => [figure.dataset.plot, Number(figure.dataset.value), text(one("figcaption", figure)), marks(figure, ".taken"),
  marks(figure, ".left")];
const main = one("#lesson, #try"), wait = one("#wait");
return main && {
  at: Number(main.dataset.tap), of: Number(main.dataset.taps), hidden: main.dataset.hidden ?? null, address: location.hash,
  title: text(one("h2", main)), place: text(one("#place")), command: text(one(".command")), sender: text(one("#sender")),
  told: all("#told > *").map(text), codes: all("#told code").map(text), guessed: all("#guess h3, #guessed li").map(text),
  asking: Boolean(one("#guess form")),
  outcome: one("[data-outcome]")?.dataset.outcome ?? null, verdict: text(one("#outcome .outcome")), meaning: text(one("#outcome .meaning")),
  other: one("#outcome .other") && full(one("#outcome .other .bytes")), request: parts("#request"), response: parts("#response"),
  asked: one("#asked") && all("#asked .question").map(question), lead: text(one("#checks h3")),
  checks: all("#checks li").map((row) => [Number(row.dataset.check), row.dataset.state, text(row)]),
  count: text(one("#card h3")), card: all("#card tr").map((row) => [row.dataset.name, "changed" in row.dataset, all("td", row).map(full)]),
  wait: wait && [Number(wait.dataset.left), Number(wait.dataset.of), one("progress").value, one("progress").max, text(wait).trim()],
  plots: all("[data-plot]").map(plot), text: main.innerText,
};"""

KEYS = {"forward": Keys.ARROW_RIGHT, "back": Keys.ARROW_LEFT, "first": Keys.HOME, "last": Keys.END}


def state(page) -> dict:
    """All that is shown; None where there is neither a lesson nor a card to try."""
    return page.execute_script(STATE)


def at(page, tap: int) -> dict:
    """What is shown at this tap, as soon as the page is there."""
    return until(lambda: (now := state(page)) and now["at"] == tap and now)


def press(page, *keys) -> None:
    """Keys for whatever has the focus."""
    page.switch_to.active_element.send_keys(*keys)


def step(page, how: str, tap: int) -> dict:
    press(page, KEYS[how])
    return at(page, tap)


def whole(page) -> dict:
    """The lesson that is shown, when all of its taps have come."""
    return until(lambda: (now := state(page)) and now["place"] and "…" not in now["place"] and now, 30)


def text_of(page, css: str) -> str:
    return page.execute_script("return document.querySelector(arguments[0])?.textContent ?? ''", css)


def trouble(page) -> str:
    """What the page complains of; nothing where the line is hidden."""
    return page.execute_script("const line = document.getElementById('trouble'); return line.hidden ? '' : line.textContent")


def quiet(name: str, page) -> None:
    """The browser has complained of nothing since this was last asked."""
    said = [one["message"] for one in page.get_log("browser") if one["level"] == "SEVERE"]
    check(f"{name}: no error in the browser's console", not said, str(said))


def each(name: str, got: list, expected: list, first: int = 1) -> None:
    """Two lists that are to be alike, and where they first are not; `first` is the tap that they begin with."""
    wrong = [at for at, pair in enumerate(zip(got, expected)) if pair[0] != pair[1]]
    why = f"{len(wrong)} differ, the first at tap {wrong[0] + first}: got {got[wrong[0]]!r}, expected {expected[wrong[0]]!r}" if wrong else ""
    check(name, not wrong and len(got) == len(expected), why or f"{len(got)} of {len(expected)}")

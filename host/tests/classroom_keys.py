"""All of it by the keyboard, in one go: the mouse is not used at all, and every control on the way shows that it has the focus."""

from selenium.webdriver.common.action_chains import ActionChains
from selenium.webdriver.common.keys import Keys

from rig import SHEETS, check, folder, play, same

from browser import browser, until
from classroom_page import at, quiet, state, step, whole

MOST = 120  # controls from one to another
FOCUSED = """
const one = document.activeElement, style = getComputedStyle(one), place = one.getBoundingClientRect();
return { found: one.matches(arguments[0]), name: one.id || one.textContent.trim().slice(0, 20) || one.tagName, page: one === document.body,
  outlined: style.outlineStyle !== "none" && parseFloat(style.outlineWidth) >= 2, there: place.width > 0 && place.height > 0 };"""


class Keyboard:
    """The keys, and every control that has had the focus."""

    def __init__(self, page):
        self.page, self.seen, self.unseen = page, set(), set()

    def press(self, *keys) -> None:
        ActionChains(self.page).send_keys(*keys).perform()

    def focused(self, css: str = "*") -> dict:
        return self.page.execute_script(FOCUSED, css)

    def reach(self, css: str, key: str = Keys.TAB) -> None:
        """From control to control up to this one."""
        for _ in range(MOST):
            self.press(key)
            now = self.focused(css)
            if not now["page"]:
                self.seen.add(now["name"])
                if not (now["outlined"] and now["there"]):
                    self.unseen.add(now["name"])
            if now["found"]:
                return
        raise RuntimeError(f"the Tab key does not lead to {css}")

    def back_to(self, css: str) -> None:
        for _ in range(MOST):
            ActionChains(self.page).key_down(Keys.SHIFT).send_keys(Keys.TAB).key_up(Keys.SHIFT).perform()
            if self.focused(css)["found"]:
                return
        raise RuntimeError(f"the Tab key does not lead back to {css}")

    def typed(self, text: str) -> None:
        """In place of what stands in the field."""
        ActionChains(self.page).key_down(Keys.CONTROL).send_keys("a").key_up(Keys.CONTROL).send_keys(text).perform()


def a_lesson(page, keys: Keyboard) -> None:
    keys.reach("[data-lesson=delay]")
    keys.press(Keys.ENTER)
    same("by keyboard: a lesson is chosen", whole(page)["title"], "A card that makes its holder wait")
    for tap in (1, 2, 3):
        step(page, "forward", tap)
    same("by keyboard: forward, and back", step(page, "back", 2)["at"], 2)
    for control in ("first", "back", "forward", "last"):
        keys.reach(f"#{control}")
    keys.back_to("#forward")
    keys.press(Keys.ENTER)
    same("by keyboard: the button forward, by Enter", at(page, 3)["at"], 3)


def a_guess(page, keys: Keyboard) -> None:
    keys.reach("#ask-first")
    keys.press(Keys.SPACE)
    now = step(page, "forward", 4)
    has_focus = keys.focused("#guess [type=radio]")["found"]
    same("by keyboard: Space asks first, and the guess has the focus", (now["hidden"], has_focus), ("true", True))
    keys.press(Keys.SPACE, Keys.ARROW_DOWN, Keys.ARROW_DOWN, Keys.ARROW_UP)
    chosen = page.execute_script("return document.querySelector('[name=guess]:checked').value")
    same("by keyboard: the arrow keys choose among the answers", chosen, "refused")
    same("and leave the tap alone", state(page)["at"], 4)
    keys.reach("#guess-remaining")
    keys.press("5")
    keys.reach("#reveal")
    keys.press(Keys.ENTER)
    now = until(lambda: (now := state(page))["hidden"] == "false" and now)
    same("by keyboard: guessed", now["guessed"], ["The guess (1 of 2 right so far)", "✗ refused: it is accepted", "✓ Remaining 5: right"])
    same("by keyboard: after the guess an arrow key goes on", step(page, "forward", 5)["at"], 5)
    keys.back_to("header a[href='#lessons']")
    keys.press(Keys.ENTER)
    check("by keyboard: back to the list", until(lambda: page.find_elements("css selector", "#lessons [data-lesson]")))


def a_card(page, keys: Keyboard, downloads) -> None:
    keys.reach("header a[href='#try']")
    keys.press(Keys.ENTER)
    until(lambda: page.find_elements("id", "make"))
    lines = [line.split("\t")[0] for line in SHEETS["secp256k1"].read_text().splitlines()]
    for name in (*lines, "pause"):
        keys.reach(f"#sheet-{name}")
        if name == "max":
            keys.typed("7")
    keys.reach("#make")
    keys.press(Keys.ENTER)
    until(lambda: page.find_element("id", "sending").is_displayed())
    keys.reach("#command")
    keys.press(Keys.ARROW_DOWN)
    until(lambda: page.find_element("id", "form").get_attribute("data-request")[2:4] == "F8")
    keys.reach("#send")
    keys.press(Keys.ENTER)
    now = at(page, 1)
    numbers = [row[2][-1] for row in now["card"] if row[0] in ("Remaining", "Max_Signatures")]
    same("by keyboard: a card is made, and a wallet on it", numbers, ["7", "7"])
    taps(page, keys)
    saved(page, keys, downloads)


def taps(page, keys: Keyboard) -> None:
    """A note, sent by Enter in its field; the history; the same bytes again."""
    idle(page)
    keys.back_to("#command")
    keys.press("WRITE_I")
    until(lambda: page.find_element("id", "form").get_attribute("data-request")[2:4] == "F6")
    keys.reach("#fields [data-tag='32'] input")
    keys.typed("oil 4.1 bar")
    keys.press(Keys.ENTER)
    at(page, 2)
    idle(page)
    check("by keyboard: after Enter in a field the focus is still in the form", keys.focused("#sending *")["found"], str(keys.focused()))
    keys.reach("#history")
    keys.press(Keys.ARROW_UP)
    same("by keyboard: the history, a tap back", at(page, 1)["command"], None)
    keys.press(Keys.ARROW_DOWN)
    at(page, 2)
    keys.back_to("#again")
    keys.press(Keys.SPACE)
    same("by keyboard: the same bytes again, which check 12 refuses", [row[0] for row in at(page, 3)["checks"] if row[1] == "failed"], [12])
    idle(page)


def idle(page) -> None:
    until(lambda: not page.find_element("id", "try").get_attribute("aria-busy"))


def saved(page, keys: Keyboard, downloads) -> None:
    keys.reach("#save")
    keys.press(Keys.ENTER)
    until(lambda: [path.suffix for path in downloads.iterdir()] == [".rec"])
    [path] = downloads.iterdir()
    done = play(path)
    same("by keyboard: what is saved plays", (done.returncode, done.stdout.count(b"\tsame\t")), (0, 3))
    keys.reach("#open")


def by_keys(address: str) -> None:
    downloads = folder()
    with browser(downloads=downloads) as page:
        page.get(address)
        until(lambda: page.find_elements("css selector", "[data-lesson]"))
        keys = Keyboard(page)
        a_lesson(page, keys)
        a_guess(page, keys)
        a_card(page, keys, downloads)
        check(f"by keyboard: {len(keys.seen)} controls, each outlined while it has the focus", len(keys.seen) > 50 and not keys.unseen,
              f"not these: {sorted(keys.unseen)}")
        quiet("by keyboard", page)

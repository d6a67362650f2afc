"""A card to try, as a person at the page handles it: its sheet, the form of a command, the history, and what is saved."""

import contextlib

from selenium.webdriver.common.by import By
from selenium.webdriver.common.keys import Keys
from selenium.webdriver.support.ui import Select

from browser import until
from classroom_page import state

# The request as it would be sent, what is shown of it, and what is wrong with it: by tag, `all` where it is none of the fields.
FORM = """
const form = document.getElementById("form"), rows = [...document.querySelectorAll("#preview tbody tr")];
const told = (node) => [node.closest("[data-tag]")?.dataset.tag ?? "all", node.textContent];
const bytes = (row) => [...row.querySelectorAll(".head, .bytes .full")].map((one) => one.textContent).join("");
return { request: form.dataset.request, wrong: Object.fromEntries([...form.querySelectorAll(".bad")].map(told).filter((one) => one[1])),
  preview: rows.map(bytes).join("") };"""
LONG = 100
TIMES = ("left out", "once", "twice")
COMPLAINTS = """
const rows = [...document.querySelectorAll("#sheet .row")];
return rows.map((row) => [row.querySelector("label").textContent, row.querySelector(".bad").textContent]);"""
HISTORY = "return [...document.querySelectorAll('#history option')].map((one) => one.textContent)"


class Desk:
    def __init__(self, page, address: str, downloads=None):
        self.page, self.downloads = page, downloads
        page.get("about:blank")
        page.get(f"{address}#try")
        until(lambda: page.find_elements(By.ID, "make"))

    def by_id(self, name: str):
        return self.page.find_element(By.ID, name)

    def settled(self, seconds: float = 10) -> dict:
        """What is shown when the page has done what it was told to."""
        until(lambda: self.page.execute_script("return !document.getElementById('try').hasAttribute('aria-busy')"), seconds)
        return state(self.page)

    def press(self, button: str, seconds: float = 10) -> dict:
        self.by_id(button).click()
        return self.settled(seconds)

    # ---- the sheet ----

    def type(self, element, text: str) -> None:
        """What is long is put in at once, as from a clipboard."""
        element.send_keys(Keys.CONTROL + "a", Keys.NULL, Keys.DELETE, text if len(text) <= LONG else "")
        if len(text) > LONG:
            self.page.execute_script("document.execCommand('insertText', false, arguments[0])", text)

    def make(self, **lines) -> dict:
        """A fresh card of the sheet that is there, with these lines changed."""
        self.page.execute_script("document.getElementById('sheet').open = true")
        for name, value in lines.items():
            self.type(self.by_id(f"sheet-{name}"), value)
        return self.press("make")

    def complaints(self) -> dict:
        """What is said beside each line of the sheet, by its name."""
        return {name: words for name, words in self.page.execute_script(COMPLAINTS) if words}

    # ---- the form ----

    def form(self) -> dict:
        return self.page.execute_script(FORM)

    def wrong(self, expected: dict) -> dict:
        """What is wrong with the form, when the last key is some time ago."""
        with contextlib.suppress(TimeoutError):
            until(lambda: self.form()["wrong"] == expected, 3)
        return self.form()["wrong"]

    def changing(self, act) -> dict:
        """Does something to the form, and waits until its request is made anew."""
        before = self.form()
        act()
        return until(lambda: (now := self.form()) != before and now)

    def pick(self, select, value: str) -> None:
        """By the arrow keys: a click of the driver is not all that a person's click is."""
        values, now = self.page.execute_script("return [[...arguments[0].options].map((one) => one.value), arguments[0].value]", select)
        steps = values.index(value) - values.index(now)
        if steps:
            select.send_keys((Keys.ARROW_DOWN if steps > 0 else Keys.ARROW_UP) * abs(steps))

    def choose(self, ins: str) -> None:
        """The form of a command as it is at first."""
        for one in ("F7" if ins == "F2" else "F2", ins):
            Select(self.by_id("command")).select_by_value(one)
            until(lambda one=one: self.form()["request"][2:4] == one)

    def row(self, tag: str):
        return self.page.find_element(By.CSS_SELECTOR, f"#fields [data-tag='{tag}']")

    def set(self, tag: str, times: str = "", way: str = "", value=None) -> None:
        """How often a field stands there, how it is given, and what is typed. An empty tag is the field that no command knows."""
        how_often, given = self.row(tag).find_elements(By.TAG_NAME, "select")
        if times:
            self.pick(how_often, str(TIMES.index(times)))
        if way:
            self.pick(given, way)
        if value is not None:
            self.type(self.row(tag).find_elements(By.CSS_SELECTOR, "input, textarea")[-1], value)

    def send(self) -> dict:
        return self.press("send")

    def sent(self, ins: str, *fields) -> dict:
        """A command from its form, with these fields set, and its tap."""
        self.choose(ins)
        for field in fields:
            self.changing(lambda field=field: self.set(*field))
        return self.send()

    # ---- history and recordings ----

    def history(self) -> list:
        return self.page.execute_script(HISTORY)

    def go_to(self, tap: int) -> dict:
        """An earlier tap of the history; the form is that card's as soon as it has been found."""
        Select(self.by_id("history")).select_by_value(str(tap))
        return until(lambda: (now := state(self.page))["at"] == tap and now)

    def saved(self) -> bytes:
        """What Save gives to the person."""
        self.press("save")
        until(lambda: [path.suffix for path in self.downloads.iterdir()] == [".rec"])
        [path] = self.downloads.iterdir()
        recording = path.read_bytes()
        path.unlink()
        return recording

    def open(self, path) -> dict:
        self.by_id("open").send_keys(str(path))
        return self.settled(60)

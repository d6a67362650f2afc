"""On a phone and on a projector, by day and by night: whatever is shown, nobody has to scroll sideways."""

from rig import check, same

from browser import sized
from classroom_desk import Desk
from classroom_expected import COMMANDS
from classroom_lessons import LESSONS
from classroom_page import at, quiet, whole

SIZES = {"360 wide": (360, 740), "1,280 wide": (1280, 720)}
COLOURS = ("light", "dark")
A4 = (718, 1047)  # points of the page's between margins of a centimetre
# Behind the triangles stands what is long: all of them are open.
MEASURE = """
document.querySelectorAll("details").forEach((one) => (one.open = true));
const wide = [...document.querySelectorAll(".column")].filter((one) => one.scrollWidth > one.clientWidth + 1);
return [document.documentElement.scrollWidth, innerWidth, wide.map((one) => one.id || one.className)];"""


class Views:
    """Every view in every size and colour, and those that are wider than the page."""

    def __init__(self, page):
        self.page, self.seen, self.wrong = page, 0, {}

    def look(self, name: str) -> None:
        for size, (width, height) in SIZES.items():
            sized(self.page, width, height)
            for colour in COLOURS:
                coloured(self.page, colour)
                needed, there, columns = self.page.execute_script(MEASURE)
                self.seen += 1
                if needed > there or there != width or columns:
                    self.wrong[f"{name}, {size}, {colour}"] = needed, columns

    def told(self, name: str) -> None:
        check(f"{name}: {self.seen} views, none wider than the page", self.seen and not self.wrong, str(self.wrong))
        self.seen, self.wrong = 0, {}


def coloured(page, colour: str) -> None:
    page.execute_cdp_cmd("Emulation.setEmulatedMedia", {"features": [{"name": "prefers-color-scheme", "value": colour}]})


def brightness(page, colour: str) -> float:
    """Of the page's ground, from 0 to 1."""
    coloured(page, colour)
    colours = page.execute_script("return getComputedStyle(document.body).backgroundColor.match(/\\d+/g).map(Number)")
    return sum(colours[:3]) / 765


def of_lessons(page, address: str, views: Views) -> None:
    """Before the first tap, in the middle and at the last."""
    page.get(address)
    views.look("the list")
    views.told("the list")
    for path in LESSONS:
        page.get("about:blank")
        page.get(f"{address}#lesson/{path.stem}/0")
        count = whole(page)["of"]
        for tap in (0, count // 2, count):
            page.execute_script("location.hash = arguments[0]", f"#lesson/{path.stem}/{tap}")
            at(page, tap)
            views.look(f"{path.stem}, tap {tap}")
        views.told(path.stem)


def of_guess(page, address: str, views: Views) -> None:
    page.get("about:blank")
    page.get(f"{address}#lesson/refused/10")
    at(page, 10)
    page.find_element("id", "ask-first").click()
    page.find_element("id", "forward").click()
    views.look("the guess")
    views.told("the guess")


def of_try(page, address: str, views: Views) -> None:
    """The sheet, with a bad line as well, and the form of each command, before a tap and after one that fills the page."""
    desk = Desk(page, address)
    views.look("the sheet")
    desk.make(cid="x", max="0")
    views.look("the sheet, two bad lines")
    sized(page, *SIZES["1,280 wide"])
    desk.make(cid="AA00000000016675", max="9")
    desk.sent("F8")
    desk.sent("FB", ("50", "", "", "\n".join(map(str, range(10)))))
    desk.sent("E0", ("2A", "", "hex", "41" * 512))
    for ins in COMMANDS:
        sized(page, *SIZES["1,280 wide"])
        desk.choose(ins)
        views.look(f"the form of {ins}")
    sized(page, *SIZES["1,280 wide"])
    desk.go_to(2)
    views.look("the history, at the tap of ten signatures")
    views.told("a card to try")


# ---- on paper ----

PAPER = """
const pressed = [...document.querySelectorAll("a, button, input, select")].filter((one) => one.checkVisibility());
return [document.querySelectorAll("details:not([open])").length, pressed.map((one) => one.id || one.textContent),
  document.documentElement.scrollWidth <= innerWidth];"""


def on_paper(page, address: str) -> None:
    page.get("about:blank")
    page.get(f"{address}#lesson/five-hashes/3")
    at(page, 3)
    page.execute_cdp_cmd("Emulation.setEmulatedMedia", {"media": "print"})
    sized(page, *A4)
    page.execute_script("dispatchEvent(new Event('beforeprint'))")
    same("on paper: nothing is folded away, there is nothing to press, and all is within its width", page.execute_script(PAPER), [0, [], True])
    page.execute_script("dispatchEvent(new Event('afterprint'))")
    check("after printing what was folded away is so again", page.execute_script(PAPER)[0] > 0)
    page.execute_cdp_cmd("Emulation.setEmulatedMedia", {"media": ""})


def wide(page, address: str) -> None:
    on_paper(page, address)
    views = Views(page)
    of_lessons(page, address, views)
    of_guess(page, address, views)
    of_try(page, address, views)
    same("light is light, and dark is dark", [brightness(page, colour) > 0.5 for colour in COLOURS], [True, False])
    quiet("narrow and wide", page)

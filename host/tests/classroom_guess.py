"""The class is asked first: nothing of the answer is shown before it has guessed, and what was guessed is held to what came."""

from selenium.webdriver.common.keys import Keys

from rig import ROOT, check, same

from browser import until
from classroom_expected import Expected, Words, without_change
from classroom_lessons import opened
from classroom_page import at, press, quiet, state, step

LESSON = "last-signatures"
PATH = ROOT / "lessons" / f"{LESSON}.rec"
CHOICES = ("accepted", "refused", "wait")
# The tap, what is guessed of the card and of Remaining, and what has to be said then: by the lesson's page, and counted by hand.
GUESSES = (
    (1, "accepted", "3", ["The guess (2 of 2 right so far)", "✓ accepted: right", "✓ Remaining 3: right"]),
    (2, "accepted", "3", ["The guess (3 of 4 right so far)", "✗ accepted: it is refused", "✓ Remaining 3: right"]),
    (3, "refused", "0", ["The guess (3 of 6 right so far)", "✗ refused: it is accepted", "✗ Remaining 0: it is 2"]),
    (4, None, None, []),
    (5, None, "2", ["The guess (4 of 7 right so far)", "✓ Remaining 2: right"]),
    (11, "refused", None, ["The guess (5 of 8 right so far)", "✓ refused: right"]),
    (12, "wait", None, ["The guess (6 of 9 right so far)", "✓ has to wait: right"]),
    (13, "wait", None, ["The guess (6 of 10 right so far)", "✗ has to wait: it is accepted"]),
    (14, "wait", "1", ["The guess (6 of 12 right so far)", "✗ has to wait: it is refused", "✗ Remaining 1: it is 0"]),
)


def nothing_told(tap: int, now: dict, expected: Expected, words: Words) -> None:
    """What is sent is there, and nothing else of this tap."""
    name, told = f"asked first, tap {tap}", expected.told[tap - 1]
    same(f"{name}: it is hidden, and asked for", (now["at"], now["hidden"], now["asking"], now["place"]),
         (tap, "true", True, f"Tap {tap} of {now['of']}"))
    same(f"{name}: the request is there", "".join(one["shown"] for one in now["request"]), told["request"])
    members = ("outcome", "verdict", "meaning", "other", "response", "asked", "wait")
    same(f"{name}: no outcome, response, question or wait", [now[one] for one in members], [None] * 7)
    same(f"{name}: no check is marked", {row[1] for row in now["checks"]}, {"later"})
    same(f"{name}: the card is as before, and nothing is marked", now["card"], without_change(expected.cards[tap - 1]))
    same(f"{name}: the plots are where they were", [plot[:2] for plot in now["plots"]], [plot[:2] for plot in expected.plots(tap - 1)])
    gives_away = [word for word in (words.told(tap)[-1], words.told(tap)[-2], told["status"], told["meaning"]) if word in now["text"]]
    same(f"{name}: neither the trainer's words nor the status stand anywhere", (gives_away, now["told"]), ([], []))


def guess(page, kind, remaining) -> None:
    """With the keys alone: the first choice has the focus. Without a guess the button shows the answer."""
    if kind:
        press(page, Keys.SPACE)
        for _ in range(CHOICES.index(kind)):
            press(page, Keys.ARROW_DOWN)
    if remaining:
        page.find_element("id", "guess-remaining").send_keys(remaining)
    if kind or remaining:
        press(page, Keys.ENTER)
    else:
        page.find_element("id", "forward").click()


def same_as(name: str, now: dict, shown: dict) -> None:
    """What is shown is what stands there without a guess."""
    apart = ("text", "guessed", "address")
    wrong = [member for member in shown if member not in apart and now[member] != shown[member]]
    check(f"{name}: all of it is shown", not wrong, f"not so: {wrong}")


def one_guess(page, tap: int, kind, remaining, said: list, expected: Expected, words: Words, shown: list) -> None:
    nothing_told(tap, step(page, "forward", tap), expected, words)
    guess(page, kind, remaining)
    now = until(lambda: (now := state(page))["hidden"] == "false" and now)
    same(f"guessed at tap {tap}: {kind or 'nothing'}, Remaining {remaining or 'nothing'}", now["guessed"], said)
    same_as(f"guessed at tap {tap}", now, shown[tap])


def skipped(page, tap: int) -> None:
    """Without the question, up to this tap."""
    ask_first(page)
    while (now := state(page)["at"]) < tap:
        step(page, "forward", now + 1)
    ask_first(page)


def ask_first(page) -> None:
    """By the keyboard."""
    page.execute_script("document.getElementById('ask-first').focus()")
    press(page, Keys.SPACE)


def in_order(page, expected: Expected, words: Words, shown: list) -> None:
    opened(page, LESSON)
    ask_first(page)
    same("ask first: Space has checked it", page.execute_script("return document.getElementById('ask-first').checked"), True)
    for tap, *more in GUESSES:
        if state(page)["at"] < tap - 1:
            skipped(page, tap - 1)
        one_guess(page, tap, *more, expected, words, shown)


def not_again(page, shown: list) -> None:
    """A tap that was shown once is not asked again, and a tap that was left without an answer is."""
    last = state(page)["at"]
    for tap in (last - 1, last - 2, last - 3):
        same_as(f"back from the guess, tap {tap}", step(page, "back", tap), shown[tap])
    for tap in (last - 2, last - 1, last):
        now = step(page, "forward", tap)
        same(f"forward again, tap {tap}: it is not asked again", (now["hidden"], now["guessed"]), ("false", []))
    same(f"tap {last + 1} is asked", step(page, "forward", last + 1)["hidden"], "true")
    page.find_element("id", "back").click()
    same_as(f"back without an answer, tap {last}", at(page, last), shown[last])
    same(f"tap {last + 1} is asked once more", step(page, "forward", last + 1)["hidden"], "true")
    count = len(shown) - 1
    same_as("End shows the last tap, and asks nothing", step(page, "last", count), shown[count])
    same("and nothing on the way back to the first", step(page, "first", 0)["hidden"], "false")
    same("nor from there", step(page, "forward", 1)["hidden"], "false")


def no_response(page, address: str, shown: list) -> None:
    """Of a tap that broke off there is no answer to guess; Remaining is what it is."""
    for words, kind, remaining, said in (("the outcome alone", "refused", None, []),
                                         ("Remaining as well", "refused", "4", ["The guess (1 of 1 right so far)", "✓ Remaining 4: right"])):
        page.get("about:blank")
        page.get(f"{address}#lesson/refused/14")
        at(page, 14)
        ask_first(page)
        step(page, "forward", 15)
        guess(page, kind, remaining)
        now = until(lambda: (now := state(page))["hidden"] == "false" and now)
        same(f"no response, {words}: what is said", now["guessed"], said)
        same_as(f"no response, {words}", now, shown[15])


def guesses(page, address: str, shown: dict) -> None:
    expected, words = Expected(PATH.read_bytes()), Words(PATH)
    page.get("about:blank")
    page.get(address)
    in_order(page, expected, words, shown[LESSON])
    not_again(page, shown[LESSON])
    no_response(page, address, shown["refused"])
    quiet("the guess", page)

"""Lessons: each chosen from the list, stepped to its end and back, and every tap of it held to ./play --json, to the twin and to its page."""

from rig import ROOT, check, same

from browser import until
from classroom_expected import (COUNTERS, OUTCOMES, SIGNS, Expected, Words, asked_of, count_text, outcome_of, refusal_text, request_parts,
                                response_parts, states_of)
from classroom_page import at, each, press, quiet, state, step, text_of, whole

LESSONS = sorted((ROOT / "lessons").glob("*.rec"))


# ---- every tap ----


def opened(page, name: str) -> dict:
    """By a click on its entry in the list."""
    until(lambda: page.find_elements("link text", "Lessons"))[0].click()
    until(lambda: page.find_elements("css selector", f"[data-lesson={name}]"))[0].click()
    return whole(page)


def walked(page) -> tuple:
    """What is shown from the start to the end, and on the way back, by the arrow keys."""
    count = state(page)["of"]
    there = [at(page, 0), *(step(page, "forward", tap) for tap in range(1, count + 1))]
    return there, [there[-1], *(step(page, "back", tap) for tap in range(count - 1, -1, -1))]


def without_words(parts) -> list:
    """What every part is, beside what is said of it. What is wrong with a request is told, too."""
    return parts and [{name: one[name] for name in ("name", "tag", "hex", "shown", "label")} for one in parts if "wrong" not in one]


def asked_by(shown: dict) -> list:
    return [("".join(part["hex"] for part in one["parts"]), one["answer"]) for one in shown["asked"]]


def answers_by(shown: dict) -> str:
    return "".join(one["answer"].replace("none", "") for one in shown["asked"])


def of_messages(name: str, taps: list, expected: Expected) -> None:
    each(f"{name}: every part of the request", [without_words(one["request"]) for one in taps], list(map(request_parts, expected.requests)))
    each(f"{name}: the request is there to the byte", ["".join(part.get("shown", "") for part in one["request"]) for one in taps],
         [one["request"] for one in expected.told])
    wrong = [any("wrong" in part for part in one["request"]) for one in taps]
    each(f"{name}: where checks 1 to 5 refuse a request, it is said what is wrong with it",
         [said for said, reason in zip(wrong, expected.reasons) if 1 <= reason <= 5], [True for reason in expected.reasons if 1 <= reason <= 5])
    accepted = [tap for tap, (said, one) in enumerate(zip(wrong, taps), 1) if said and one["outcome"] == "accepted"]
    same(f"{name}: nothing is wrong with a request that is accepted", accepted, [])
    each(f"{name}: every field of the response, and its status word", [without_words(one["response"]) for one in taps],
         list(map(response_parts, expected.told)))
    each(f"{name}: the questions to the byte, and their answers", list(map(asked_by, taps)),
         [asked_of(image, *line) for image, line in zip(expected.images, expected.lines)])
    each(f"{name}: the answers are the recording's", list(map(answers_by, taps)), [line[2].hex().upper() for line in expected.lines])


def verdict_of(told: dict) -> str:
    return OUTCOMES[outcome_of(told["word"])] + (f" · {told['word']} {told['status']}" if told["word"] else "")


def of_outcomes(name: str, taps: list, expected: Expected) -> None:
    each(f"{name}: the outcome", [one["outcome"] for one in taps], [outcome_of(one["word"]) for one in expected.told])
    each(f"{name}: outcome, word and status in a line", [one["verdict"] for one in taps], list(map(verdict_of, expected.told)))
    each(f"{name}: the meaning", [one["meaning"] for one in taps], [one["meaning"] for one in expected.told])
    each(f"{name}: none is other", [one["other"] for one in taps], [None for _ in expected.told])
    asked = [asked_of(image, *line) for image, line in zip(expected.images, expected.lines)]
    states = [states_of(one["word"], reason, questions) for one, reason, questions in zip(expected.told, expected.reasons, asked)]
    each(f"{name}: each check passed, refused or later, as the twin refuses", [[row[:2] for row in one["checks"]] for one in taps],
         [[[number, said] for number, said in enumerate(one, 1)] for one in states])
    wrong = [row for one in taps for row in one["checks"] if not row[2].startswith(f"{SIGNS[row[1]]} {row[0]}. ")]
    check(f"{name}: each check with its sign and number", not wrong, str(wrong))
    each(f"{name}: the check that refused, in words", [[row[2].endswith(refusal_text(row[0])) for row in one["checks"] if row[1] == "failed"]
                                                      for one in taps], [[True] if reason else [] for reason in expected.reasons])
    leads = [one["lead"] if "check" in one["lead"] and one["outcome"] != "wait" else "" for one in taps]
    each(f"{name}: which check refused stands above them", leads, [f"Refused by check {reason}" if reason else "" for reason in expected.reasons])


def of_places(name: str, taps: list, expected: Expected) -> None:
    count = len(expected.told)
    each(f"{name}: the command", [one["command"] for one in taps], [one["command"] or "no command of this card" for one in expected.told])
    each(f"{name}: the place among the taps", [one["place"] for one in taps],
         [f"Tap {tap} of {count}: {OUTCOMES[outcome_of(one['word'])]}" for tap, one in enumerate(expected.told, 1)])
    each(f"{name}: the address of each tap", [one["address"] for one in taps], [f"#lesson/{name}/{tap}" for tap in range(1, count + 1)])


def bars_of(waits: list) -> list:
    return [wait and [*wait, *wait] for wait in waits]


def of_card(name: str, states: list, expected: Expected) -> None:
    """`states` has the card before the first tap as well."""
    each(f"{name}: every value of the card, those that changed with the one before", [one["card"] for one in states],
         [expected.card(tap) for tap in range(len(states))], 0)
    each(f"{name}: what is marked as changed, by ./play --json", [[row[0] for row in one["card"] if row[1]] for one in states],
         [[], *(list(one["changed"]) for one in expected.told)], 0)
    each(f"{name}: numbers before and after, by ./play --json", list(map(numbers_shown, states[1:])), list(map(numbers_changed, expected.told)))
    counts = [count_text(len(one["changed"])) for one in expected.told]
    each(f"{name}: how many changed", [one["count"] for one in states], ["The card", *counts], 0)
    each(f"{name}: the bar of the wait", [one["wait"] and one["wait"][:4] for one in states[1:]], bars_of(expected.waits))
    each(f"{name}: the plots", [one["plots"] for one in states], [expected.plots(tap) for tap in range(len(states))], 0)


def numbers_shown(shown: dict) -> dict:
    return {name: [int(text.split()[0]) for text in both] for name, is_changed, both in shown["card"] if is_changed and name in COUNTERS}


def numbers_changed(told: dict) -> dict:
    return {name: both for name, both in told["changed"].items() if name in COUNTERS}


def of_words(name: str, states: list, words: Words) -> None:
    same(f"{name}: title and introduction", (states[0]["title"], states[0]["told"]), (words.title, words.introduction))
    numbers = range(1, len(states))
    each(f"{name}: the trainer's words", [one["told"] for one in states[1:]], [words.told(tap) for tap in numbers])
    each(f"{name}: and what is code in them", [one["codes"] for one in states[1:]], [words.codes(tap) for tap in numbers])
    each(f"{name}: who sends", [one["sender"] for one in states[1:]], [words.sender(tap) for tap in numbers])


def unplaced(shown: dict) -> dict:
    """Without the address, which has no tap as long as nobody has stepped."""
    return {**shown, "address": ""}


def one_lesson(page, path) -> list:
    """What the page has shown before the first tap and at each."""
    name, expected = path.stem, Expected(path.read_bytes())
    opened(page, name)
    there, back = walked(page)
    same(f"{name}: as many taps as the recording has", len(there) - 1, len(expected.requests))
    of_words(name, there, Words(path))
    of_messages(name, there[1:], expected)
    of_outcomes(name, there[1:], expected)
    of_card(name, there, expected)
    of_places(name, there[1:], expected)
    each(f"{name}: on the way back all is shown again", list(map(unplaced, back)), list(map(unplaced, there[::-1])))
    return there


# ---- the list, and the ways to a tap ----


def the_list(page, address: str) -> None:
    page.get(address)
    until(lambda: page.find_elements("css selector", "[data-lesson]"))
    entries = page.execute_script("return [...document.querySelectorAll('[data-lesson]')].map((one) => [one.dataset.lesson, "
                                  "one.querySelector('.question').textContent, one.querySelector('.title').textContent])")
    words = {path.stem: Words(path) for path in LESSONS}
    same("the list: every lesson with its question and its title", sorted(entries),
         sorted([name, one.question, one.title] for name, one in words.items()))


def other_ways(page, address: str, shown: list) -> None:
    """Home, End and the buttons; the address of a tap."""
    last = len(shown) - 1
    opened(page, "delay")
    for words, how, tap in (("End", "last", last), ("Home", "first", 0)):
        same(f"{words} leads to tap {tap}", step(page, how, tap)["text"], shown[tap]["text"])
    for button, tap in (("forward", 1), ("forward", 2), ("back", 1), ("last", last), ("back", last - 1), ("forward", last), ("first", 0)):
        page.find_element("id", button).click()
        same(f"the button {button} leads to tap {tap}", at(page, tap)["text"], shown[tap]["text"])
    page.find_element("id", "last").click()
    press(page, "\ue012")
    same("after the button that cannot go on the arrow key goes back", at(page, last - 1)["at"], last - 1)
    for where, tap in ((f"{address}#lesson/delay/14", 14), (f"{address}#lesson/delay/3", 3), (f"{address}#lesson/delay", 0)):
        page.get("about:blank")
        page.get(where)
        whole(page)
        same(f"the address of tap {tap} opens it", at(page, tap)["text"], shown[tap]["text"])
    page.execute_script("location.hash = '#lesson/delay/7'")
    same("the address of another tap leads to it", at(page, 7)["text"], shown[7]["text"])
    page.execute_script("location.hash = '#lesson/nothing'")
    until(lambda: "no lesson" in text_of(page, "#trouble"))
    check("a lesson that is not there: it is said", "there is no lesson of this name" in text_of(page, "#trouble"))
    page.get_log("browser")  # the answer 400 is an error to the browser
    page.execute_script("location.hash = '#lesson/%/1'")
    check("an address that is none: it is said", until(lambda: "no lesson" not in text_of(page, "#trouble") and text_of(page, "#trouble")))
    page.find_element("link text", "Lessons").click()
    check("and the list can be had again", until(lambda: page.find_elements("css selector", "[data-lesson]")))


def lessons(page, address: str) -> dict:
    the_list(page, address)
    shown = {path.stem: one_lesson(page, path) for path in LESSONS}
    other_ways(page, address, shown["delay"])
    quiet("lessons", page)
    return shown

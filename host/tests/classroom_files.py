"""Recordings of one's own: opened in the list of lessons and in a card to try, good ones and such as no play can be made of. What is wrong
is said in the words of ./play --json, and the server goes on."""

import json
import os
import random

from bad_lines import DRAW, GOOD, SHEET
from recordings import image_at_end, responses_of
from rig import ROOT, check, folder, play, same
from twin.image import decode

from browser import browser, until
from classroom_desk import Desk
from classroom_expected import texts_of
from classroom_guarded import READ_CARD
from classroom_lessons import walked
from classroom_page import quiet, state, trouble, whole

LESSON = ROOT / "lessons" / "refused.rec"
BAD_LINE, OTHER_TAP = 17, 3
TOO_MANY, MOST = 91_000_000, 90_000_000  # bytes


def line_of(length: int) -> str:
    """A line of so many bytes before its line feed, whose request is all that is wrong with it."""
    rest = GOOD[4:-1]
    return "00" * ((length - len(rest)) // 2) + rest + "\n"


def bad_recordings() -> dict:
    """By name: such as have no card, and such as have some taps before the bad line."""
    lines = LESSON.read_bytes().splitlines(keepends=True)
    bad = [*lines[: BAD_LINE - 1], lines[BAD_LINE - 1].lower(), *lines[BAD_LINE:]]
    return {"no text": random.Random(55).randbytes(4000), "empty": b"", "line 17 bad": b"".join(bad),
            "a line of 8,193 bytes": (SHEET + GOOD + line_of(8193)).encode(), "the sheet alone cut": SHEET.encode()[:-1]}


def with_other() -> bytes:
    """A lesson in which one response is expected otherwise, in its last digit."""
    lines = LESSON.read_text().splitlines(keepends=True)
    at = len(lines) - len(responses_of(LESSON.read_bytes())) + OTHER_TAP - 1
    return "".join([*lines[:at], lines[at][:-2] + ("1" if lines[at][-2] != "1" else "0") + "\n", *lines[at + 1 :]]).encode()


def complaint(name: str, recording: bytes) -> str:
    """By ./play --json: its last object."""
    *taps, last = [json.loads(line) for line in play("--json", input=recording).stdout.splitlines()]
    return f"{name}: line {last['line']} is bad: {last['reason']}" + (". What stands before it was played." if taps else "")


def answers(page) -> bool:
    return page.execute_async_script("const done = arguments[0]; fetch('words').then((one) => done(one.status === 200), () => done(false))")


def answers_still(name: str, page) -> None:
    check(f"{name}: the server still answers", answers(page))


# ---- in the list of lessons ----


def opened(page, address: str, path) -> dict:
    page.get("about:blank")
    page.get(address)
    until(lambda: page.find_elements("id", "open-lesson"))[0].send_keys(str(path))


def other_in_list(page, address: str, path) -> None:
    path.write_bytes(with_other())
    opened(page, address, path)
    whole(page)
    there, _ = walked(page)
    expected = responses_of(path.read_bytes())[OTHER_TAP - 1]
    same("other, in the list: it says so at that tap alone, with what is expected", {now["at"]: now["other"] for now in there if now["other"]},
         {OTHER_TAP: expected})
    same("other, in the list: its title is the file's name", there[0]["title"], path.name)
    same("other, in the list: how many at the end", there[-1]["told"], ["1 of 20 answered otherwise than the recording expects."])
    same("other, in the list: no trainer's words", [now["told"] for now in there[:-1]], [[]] * (len(there) - 1))
    same("a file's name is text", (page.find_elements("css selector", "img"), page.title), ([], "Merelstof: the practice card"))


def back_to_list(page, address: str) -> None:
    """A recording that was opened is left again as every lesson is."""
    opened(page, f"{address}#lessons", LESSON)
    whole(page)
    page.find_element("link text", "Lessons").click()
    try:
        until(lambda: page.find_elements("css selector", "[data-lesson]"), 2)
    except TimeoutError:
        pass
    check("a recording that was opened: the link Lessons leads back to the list", page.find_elements("css selector", "[data-lesson]"))


def stray_answers(page, address: str, path) -> None:
    """Answers that nobody asked for: no response, and they are shown all the same."""
    path.write_text(SHEET + f"{READ_CARD}\t{DRAW}\tABCD\t4\n")
    opened(page, address, path)
    whole(page)
    now = walked(page)[0][1]
    got = now["outcome"], now["response"], now["other"]
    same("answers that nobody asked for: no response, as the recording expects", got, ("none", None, None))
    same("answers that nobody asked for: they are shown", [(one["parts"], one["answer"]) for one in now["asked"]], [([], "ABCD")])


def bad_in_list(page, address: str, place) -> None:
    for name, recording in bad_recordings().items():
        path = place / f"{name}.rec"
        path.write_bytes(recording)
        opened(page, address, path)
        said = until(lambda: trouble(page))
        same(f"{name}, in the list: line and reason", said, complaint(path.name, recording))
        chosen = page.execute_script("return document.getElementById('open-lesson')?.value ?? ''")
        same(f"{name}, in the list: the same file can be chosen again", chosen, "")
        answers_still(f"{name}, in the list", page)
    same("line 17 bad, in the list: two taps before it, and a line where it ends", two_taps(page, address, place / "line 17 bad.rec"),
         (2, f"Line {complaint('', bad_recordings()['line 17 bad'])[7:].replace('. What stands before it was played.', '')}"))


def two_taps(page, address: str, path) -> tuple:
    opened(page, address, path)
    whole(page)
    there, _ = walked(page)
    return there[-1]["at"], "".join(there[-1]["told"])


def too_long_in_list(page, address: str, path) -> None:
    opened(page, address, path)
    said = until(lambda: trouble(page))
    same("91,000,000 bytes, in the list: it is said", said.replace(",", ""), f"{path.name}: it has more than {MOST} bytes and no recording has")
    check("91,000,000 bytes, in the list: the list is still there", page.find_elements("css selector", "[data-lesson]"))
    answers_still("91,000,000 bytes, in the list", page)


# ---- in a card to try ----


def good_in_try(desk: Desk) -> None:
    """The lesson's card at its end, which goes on; saved again it is the same recording."""
    recording = LESSON.read_bytes()
    now = desk.open(LESSON)
    card = {row[0]: row[2][-1] for row in now["card"]}
    same("opened in a card to try: the card of the twin at its end", (now["at"], card), (20, texts_of(decode(image_at_end(recording)))))
    lines = [desk.by_id(f"sheet-{name}").get_attribute("value") for name in ("max", "pause")]
    same("opened in a card to try: the lines of its sheet", lines, ["5", ""])
    same("opened in a card to try: saved again it is the same, to the byte", desk.saved(), recording)
    desk.sent("F2")
    check("opened in a card to try: it goes on from there", desk.saved().startswith(recording) and state(desk.page)["of"] == 21)


def other_in_try(desk: Desk, path) -> None:
    now = desk.open(path)
    same("other, in a card to try: it is said", trouble(desk.page), f"{path.name}: 1 of 20 taps answered otherwise than it expects.")
    marked = [at for at, line in enumerate(desk.history()) if "other" in line]
    same("other, in a card to try: the history has it at that tap alone", marked, [OTHER_TAP])
    others = {tap: desk.go_to(tap)["other"] for tap in range(OTHER_TAP - 1, OTHER_TAP + 2)}
    same("other, in a card to try: what was expected", others, {2: None, 3: responses_of(path.read_bytes())[2], 4: None})
    same("other, in a card to try: all taps are there", now["of"], 20)
    same("other, in a card to try: what is saved has what the card has answered", desk.saved(), LESSON.read_bytes())


def bad_in_try(desk: Desk, place) -> None:
    for name, recording in bad_recordings().items():
        path = place / f"{name}.rec"
        taps = int(play("--json", input=recording).stdout.count(b'"tap":'))
        before = state(desk.page)
        now = desk.open(path)
        same(f"{name}, in a card to try: line and reason", trouble(desk.page), complaint(path.name, recording))
        same(f"{name}, in a card to try: {taps} taps, or the card that was there", now["of"], taps or before["of"])
        same(f"{name}, in a card to try: the same file can be chosen again", desk.by_id("open").get_attribute("value"), "")
        answers_still(f"{name}, in a card to try", desk.page)


def too_long_in_try(desk: Desk, path) -> None:
    before = state(desk.page)
    same("91,000,000 bytes, in a card to try: all is as it was", desk.open(path), before)
    same("91,000,000 bytes, in a card to try: it is said", trouble(desk.page).replace(",", ""),
         f"{path.name} has more than {MOST} bytes and no recording has")
    answers_still("91,000,000 bytes, in a card to try", desk.page)


def files(address: str) -> None:
    place, downloads = folder(), folder()
    other, huge = place / "<img src=x onerror=document.title='hacked'>.rec", place / "huge.rec"
    with open(huge, "wb") as file:
        os.truncate(file.fileno(), TOO_MANY)
    with browser(downloads=downloads) as page:
        other_in_list(page, address, other)
        stray_answers(page, address, place / "stray.rec")
        back_to_list(page, address)
        bad_in_list(page, address, place)
        too_long_in_list(page, address, huge)
        desk = Desk(page, address, downloads)
        good_in_try(desk)
        other_in_try(desk, other)
        bad_in_try(desk, place)
        too_long_in_try(desk, huge)
        quiet("recordings of one's own", page)

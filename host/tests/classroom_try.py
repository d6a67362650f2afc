"""A card to try: its sheet, every command from its form, requests that are wrong on purpose, the wait, the history. What the page shows is
held to the twin and to ./play --json, which play what the page saves."""

import hashlib

from rig import SHEETS, check, folder, play, same
from twin.card import personalise
from twin.image import decode

from browser import browser, until
from classroom_desk import Desk
from classroom_expected import Expected, count_text, without_change
from classroom_lessons import of_card, of_messages, of_outcomes
from classroom_page import each, quiet, state, trouble

SHEET = SHEETS["secp256k1"].read_text()
COMMANDS = ("FE", "F2", "F8", "F9", "F3", "F4", "FB", "E0", "E1", "F6", "F7", "FA", "FC")  # in an order in which each is accepted
TEXTS = ("hours 1204", "oil 4.1 bar", "coolant full", "belt checked", "filter changed")
# Waits it out, and chooses tap 1 of the history while the third sending is on its way.
WHILE_WAITING = """
const history = document.getElementById("history"), fetched = window.fetch;
let sendings = 0;
window.fetch = (path, how) => {
  const answer = fetched(path, how);
  if (path === "tap" && ++sendings === 3) {
    window.fetch = fetched;
    history.value = "1";
    history.dispatchEvent(new Event("change"));
  }
  return answer;
};
document.getElementById("wait-out").click();"""
HOSTILE = "<img src=x onerror=document.title='hacked'>"


def sheet_with(**lines) -> bytes:
    """The page's sheet, which begins as the example of this curve, with these lines changed."""
    rows = [line.split("\t") for line in SHEET.splitlines()]
    pause = [["pause", lines["pause"]]] if lines.get("pause") else []
    return "".join(f"{name}\t{lines.get(name, value)}\n" for name, value in (*rows, *pause)).encode()


def fresh(sheet: bytes) -> list:
    return without_change(decode(personalise(sheet)[1]))


# ---- the sheet ----


def bad_lines(desk: Desk) -> None:
    """Two bad lines and a bad pause, each said at its place; and nothing is lost by it."""
    same("the sheet: without a card there is nothing to send, and nothing to save",
         [desk.by_id("send").is_displayed(), desk.by_id("save").is_enabled()], [False, False])
    desk.make(cid="aa00000000016675", max="01")
    wanted = {"cid": "✗ line 1 has to be cid, a tab and 16 hex digits in capitals",
              "max": "✗ line 6 has to be max, a tab and a number from 1 to 4294967295 without leading zeros"}
    same("the sheet: two bad lines, each with its number and what it has to be", desk.complaints(), wanted)
    marked = desk.page.execute_script("return [...document.querySelectorAll('#sheet [aria-invalid=true]')].map((one) => one.id)")
    same("the sheet: both are marked, and the first has the focus", (marked, desk.page.switch_to.active_element.get_attribute("id")),
         (["sheet-cid", "sheet-max"], "sheet-cid"))
    same("the sheet: no card is made of it", desk.by_id("send").is_displayed(), False)
    desk.make(cid="AA00000000016675", max="9", pause="61")
    same("the sheet: a bad pause", desk.complaints(),
         {"pause": "✗ line 15 has to be nothing, or pause, a tab and a number from 0 to 60 without leading zeros"})
    now = desk.make(pause="")
    same("the sheet, mended: no complaint, and a card as the twin makes it", (desk.complaints(), now["card"], now["at"], now["of"]),
         ({}, fresh(sheet_with(max="9")), 0, 0))


# ---- every command ----


def of_taps(name: str, states: list, recording: bytes, sheet: bytes) -> Expected:
    """All that was shown, from the fresh card on, held to what was saved."""
    check(f"{name}: what is saved begins with its sheet", recording.startswith(sheet), str(recording[: len(sheet)]))
    done = play(input=recording)
    verdicts = [line.split(b"\t")[1] for line in done.stdout.splitlines()[:-1]]
    same(f"{name}: what is saved plays, every tap the same", (done.returncode, verdicts), (0, [b"same"] * (len(states) - 1)))
    expected = Expected(recording)
    same(f"{name}: every tap has a draw of its own", len({draw for _, draw, _ in expected.lines}), len(expected.lines))
    of_messages(name, states[1:], expected)
    of_outcomes(name, states[1:], expected)
    of_card(name, states, expected)
    return expected


def thirteen(desk: Desk) -> None:
    """Each command from its form as it is at first, with what is shown before it is sent."""
    states = [desk.make(active="0", max="9")]
    for ins in COMMANDS:
        desk.choose(ins)
        before = desk.form()
        states.append(desk.send())
        sent = "".join(one.get("shown", "") for one in states[-1]["request"])
        same(f"command {ins}: what is shown beforehand is what is sent", before, {"preview": sent, "request": sent, "wrong": {}})
        same(f"command {ins}: its form as it is at first is accepted", states[-1]["outcome"], "accepted")
    expected = of_taps("thirteen commands", states, desk.saved(), sheet_with(active="0", max="9"))
    same("thirteen commands: each was sent", [one["command"] for one in expected.told],
         ["ACTIVATE_CARD", "READ_CARD", "CREATE_WALLET", "CHECK_WALLET", "VERIFY_CARD", "VALIDATE_CARD", "SIGN", "WRITE_USER_DATA",
          "READ_USER_DATA", "WRITE_ISSUER_DATA", "READ_ISSUER_DATA", "SET_PIN", "PURGE_WALLET"])
    each("thirteen commands: the history", desk.history(), ["0 the fresh card", *(f"{tap} {one['command']} ✓ {one['word']} accepted"
                                                                                for tap, one in enumerate(expected.told, 1))], 0)


# ---- what a person tries ----


def value(now: dict, name: str) -> str:
    return {row[0]: row[2][-1] for row in now["card"]}[name]


def signs(desk: Desk) -> list:
    """Five hashes at once, and the repeat."""
    states = [desk.sent("F8"), desk.sent("FB", ("50", "", "", "\n".join(TEXTS)))]
    hashes = "".join(hashlib.sha256(text.encode()).hexdigest().upper() for text in TEXTS)
    same("five lines of text: five hashes, one after the other", [one["hex"] for one in states[1]["request"] if one["tag"] == "50"], [hashes])
    numbers = [value(states[1], name) for name in ("Remaining", "Signed_Hashes")]
    same("five hashes: Remaining one less, Signed_Hashes five more", numbers, ["8", "5"])
    states.append(desk.sent("FB", ("51", "left out"), ("50", "left out")))
    same("the repeat: the same response, nothing changed", (states[2]["response"], states[2]["count"]), (states[1]["response"], count_text(0)))
    return states


def failed(now: dict) -> list:
    return [row[0] for row in now["checks"] if row[1] == "failed"]


def notes(desk: Desk) -> list:
    states = [desk.sent("F6"), desk.sent("F6", ("35", "", "number", "1"))]
    same("a note: stored under the counter one", (states[0]["outcome"], value(states[0], "issuer data counter")), ("accepted", "1"))
    same("a note with the same counter, on purpose: refused by check 12", (states[1]["outcome"], failed(states[1])), ("refused", [12]))
    same("and the counter is where it was", value(states[1], "issuer data counter"), "1")
    return states


def waits(desk: Desk) -> list:
    """Three wrong codes are three seconds for whatever comes next: once more, and then to the end."""
    states = [desk.sent("FB", ("11", "", "code", "1234"))]
    same("a wrong PIN2: refused by check 10", (failed(states[0]), value(states[0], "wrong codes")), ([10], "1"))
    states += [desk.press("again"), desk.press("again")]
    states.append(desk.sent("F2"))
    same("the wait: three seconds", states[-1]["wait"][:2], [3, 3])
    states.append(desk.press("again"))
    same("the same bytes again: two", states[-1]["wait"][:2], [2, 3])
    last = desk.press("wait-out")
    states += [desk.go_to(last["at"] - 1), desk.go_to(last["at"])]
    same("wait it out: the last second, and done", [one["wait"][:2] for one in states[-2:]], [[1, 3], [0, 3]])
    same("wait it out: the card has answered", (states[-1]["outcome"], value(states[-1], "wrong codes")), ("accepted", "0"))
    same("where there is nothing to wait for it cannot be chosen", desk.by_id("wait-out").is_enabled(), False)
    return states


def fields(desk: Desk) -> list:
    """A field twice, one that is too long, and one that no command knows."""
    states = [desk.sent("E0", ("2A", "twice", "", "belt")), desk.sent("E0", ("2A", "once", "hex", "41" * 513)),
              desk.sent("E0", ("2A", "once", "hex", "41" * 512)), desk.sent("E1", ("", "twice", "", "4142"))]
    same("a field twice: refused by check 5", failed(states[0]), [5])
    same("513 bytes of User_Data: refused by check 11", failed(states[1]), [11])
    same("512 bytes of it: accepted", states[2]["outcome"], "accepted")
    others = [one["hex"] for one in states[3]["request"] if one["tag"] == "7F"]
    same("another field twice: accepted", (states[3]["outcome"], others), ("accepted", ["4142", "4142"]))
    return states


def wrong_values(desk: Desk) -> list:
    """What cannot be sent is said at its field, and nothing is sent."""
    digits, count = "✗ hex has digits 0 to 9 and A to F, two a byte", state(desk.page)["of"]
    for words, ins, tag, ways, reason in (
        ("a number past its bytes", "F6", "35", [("35", "", "number", "4294967296")], "✗ a decimal number from 0 to 4294967295"),
        ("a number below 0", "E0", "2C", [("2C", "once", "", "-1")], "✗ a decimal number from 0 to 4294967295"),
        ("half a byte", "E0", "2A", [("2A", "", "hex", "414")], digits),
        ("a request of more than 4,060 bytes", "E0", "2A", [("2A", "twice", "hex", "41" * 2100)], "✗ a request here has at most 4060 bytes"),
        ("half a byte in a field that no command knows", "E1", "", [("", "once", "", "4")], digits),
    ):
        desk.choose(ins)
        for one in ways:
            desk.set(*one)
        same(f"{words}: it is said at its field alone", desk.wrong({tag: reason}), {tag: reason})
        same(f"{words}: there is nothing to send", desk.send()["of"], count)
    return []


def as_hex(desk: Desk) -> list:
    """A request by hand; what is no hex is said, and sends nothing."""
    desk.choose("F2")
    desk.by_id("as-hex").click()
    raw = desk.by_id("raw")
    begun = until(lambda: raw.get_attribute("value"))
    same("as hex: it begins with the form's request", begun, desk.form()["request"])
    before = state(desk.page)["of"]
    for words, typed, reason in (("odd digits", "00F", "hex has digits 0 to 9 and A to F, two a byte"), ("nothing", "", "1 to 4060 bytes"),
                                 ("no hex", "00F2 0G", "hex has digits 0 to 9 and A to F, two a byte")):
        now = desk.changing(lambda typed=typed: desk.type(raw, typed))
        is_said = reason in now["wrong"].get("all", "")
        same(f"as hex, {words}: it is said, and there is nothing to send", (is_said, now["request"], desk.send()["of"]), (True, "", before))
    desk.changing(lambda: desk.type(raw, "00f2 0000 0110"))
    now = desk.send()
    same("as hex: small letters and blanks are taken, and sent", "".join(one.get("shown", "") for one in now["request"]), "00F200000110")
    desk.by_id("as-hex").click()
    until(lambda: desk.form()["request"].startswith("00F2"))
    return [now]


# ---- text is text ----


def of_tag(parts: list, tag: str, member: str) -> list:
    return [one[member] for one in parts if one.get("tag") == tag]


def texts(desk: Desk) -> list:
    """Whatever a note holds is text on the page: it is neither made an element, nor does it run."""
    title = desk.page.title
    states = []
    for words, way, typed, shown in (
        ("an element", "text", HOSTILE, HOSTILE),
        ("an element in hex", "hex", HOSTILE.encode().hex(), HOSTILE),
        ("control bytes", "hex", "00011B7F", "00011B7F"),
        ("no UTF-8", "hex", "FFC0AF41", "FFC0AF41"),
    ):
        states += [desk.sent("F6", ("32", "", way, typed)), desk.sent("F7"), desk.sent("E0", ("2A", "", way, typed)), desk.sent("E1")]
        data = HOSTILE.encode() if shown == HOSTILE else bytes.fromhex(typed)
        said = f"{len(data)} bytes  {shown}"
        same(f"{words}: written as they are", of_tag(states[-4]["request"], "32", "hex"), [data.hex().upper()])
        read = [*of_tag(states[-3]["response"], "32", "value"), *of_tag(states[-1]["response"], "2A", "value")]
        same(f"{words}: read back as text", read, [said, said])
        same(f"{words}: so it stands on the card", [value(states[-1], name) for name in ("Issuer_Data", "User_Data")], [said, said])
        same(f"{words}: no element of it, and the page's title is the same",
             (desk.page.find_elements("css selector", "img, script:not([src])"), desk.page.title), ([], title))
    return states


def tries(desk: Desk) -> None:
    states = [desk.make(active="1", max="9")]
    for part in (signs, notes, waits, fields, wrong_values, as_hex, texts):
        states += part(desk)
    of_taps("what a person tries", states, desk.saved(), sheet_with(max="9"))


# ---- back and on ----


def back_and_on(desk: Desk) -> None:
    """From an earlier tap the card goes on as it was then, and what came after it can be taken back."""
    states = [desk.make(), *(desk.sent("F6", ("32", "", "", f"note {number}")) for number in (1, 2, 3))]
    first = desk.saved()
    counters = [value(now, "issuer data counter") for now in states]
    same("three notes, each under the next counter", counters, ["0", "1", "2", "3"])
    now = desk.go_to(1)
    same("back at tap 1: the card is as it was then", (now["card"], value(now, "issuer data counter"), now["of"]), (states[1]["card"], "1", 3))
    desk.choose("F6")
    until(lambda: desk.form()["request"].endswith("350400000002"))
    check("back at tap 1: the next counter is that card's", desk.form()["request"].endswith("350400000002"), desk.form()["request"])
    now = desk.send()
    same("it goes on from there", (now["at"], now["of"], now["outcome"], value(now, "issuer data counter")), (2, 2, "accepted", "2"))
    of_taps("back and on", [*states[:2], now], desk.saved(), sheet_with())
    same("the taps that were left behind can be taken back", len(desk.page.find_elements("css selector", "#aside button")), 1)
    desk.page.find_element("css selector", "#aside button").click()
    now = until(lambda: (now := desk.settled())["of"] == 3 and now)
    same("taken back: the card after its three taps", (now["at"], now["card"]), (3, states[3]["card"]))
    same("taken back: saved, it is the same recording", desk.saved(), first)
    same("and what was sent from tap 1 can be taken back now", len(desk.page.find_elements("css selector", "#aside button")), 1)


def while_it_waits(desk: Desk) -> None:
    """Who looks at the history while the page sends the same bytes again and again does not lead it astray."""
    desk.make(pause="9")
    desk.sent("F2")
    desk.sent("F8")
    desk.page.execute_script(WHILE_WAITING)
    now = desk.settled(30)
    done = play(input=desk.saved())
    same("the history chosen while a tap is on its way: what is saved still plays, every tap the same",
         (done.returncode, done.stdout.count(b"\tsame\t"), done.stdout.count(b"\tother\t")), (0, now["of"], 0))
    desk.make(pause="")


def two_pages(desk: Desk, address: str) -> None:
    """Another page at the same server has a card of its own."""
    page, before = desk.page, state(desk.page)
    page.switch_to.new_window("tab")
    other = Desk(page, address, desk.downloads)
    now = other.make(cid="BB00000000000001", curve="ed25519")
    same("another page: a fresh card of its own", (value(now, "CID"), value(now, "curve"), now["of"]), ("BB00000000000001", "2  ed25519", 0))
    same("another page: it is tapped", other.sent("F8")["outcome"], "accepted")
    recording = other.saved()
    page.close()
    page.switch_to.window(page.window_handles[0])
    same("the first page's card is as it was", state(page), before)
    same("another page: its recording is of its card", (recording.splitlines()[0], recording.count(b"\n")), (b"cid\tBB00000000000001", 15))


def tried(address: str) -> None:
    downloads = folder()
    with browser(downloads=downloads) as page:
        desk = Desk(page, address, downloads)
        bad_lines(desk)
        thirteen(desk)
        tries(desk)
        desk = Desk(page, address, downloads)
        back_and_on(desk)
        while_it_waits(desk)
        two_pages(desk, address)
        same("a card to try: no trouble at the end", trouble(page), "")
        quiet("a card to try", page)

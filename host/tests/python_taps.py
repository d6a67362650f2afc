"""The package merelstof against the twin, in the way of MERELSTOF_WAY. host/tests/python.test runs it once for each way, which stands
before the name of each check. Needs the standard library alone, so that any Python can run it."""

import os
import re
import signal

from python_way import SHEET, WAY, Given, at_once, named, raised
from reasons import REASONS
from rig import ROOT, check, end, fields, same

import merelstof
from merelstof import BadSheet, Card, MadeUp, NoTap, NotACard, WrongAnswers, WrongDraw, create_wallet, read_card, sha256, sign
from merelstof.library import Loaded, Served, library
from twin import bench, card as twin
from twin.chance import Chance
from twin.chance_requests import next_request
from twin.chance_sheets import damaged_sheet, good_sheet
from twin.histories import answers_by_chance, damaged_image, first_card, lent_by_chance
from twin.image import decode, encode
from twin.reached_delay import Paced
from twin.recording import lines_of, parts_of, sheet_length

TAPS = int(os.environ.get("TAPS", "600"))


def tapped(card: Card, request: bytes, draw: bytes) -> tuple:
    """The response as a recording has it, and the reason, which no recording has."""
    try:
        response = card.tap(request, draw)
        return response.bytes.hex().upper(), response.reason
    except WrongAnswers:
        return "4", 0


def lessons():
    for path in sorted((ROOT / "lessons").glob("*.rec")):
        lines, provider = lines_of(path.read_bytes()), Given()
        sheet, taps = lines[: sheet_length(lines)], lines[sheet_length(lines) :]
        card = Card.from_sheet(b"".join(sheet), provider)
        image, different = card.image, []
        for number, line in enumerate(taps, 1):
            request, draw, provider.answers, expected = parts_of(line)
            settled = twin.settle(image, request, draw, provider.answers)
            image = settled.image or image
            if (*tapped(card, request, draw), card.image) != (expected, settled.reason, image):
                different.append(number)
        check(named(f"{path.stem}: {len(taps)} taps as they were recorded"), len(taps) > 6 and not different, str(different))


# ---------------------------------------------------------------- by chance


def read_off(card: Card) -> tuple:
    """The card's values by the package's names, in the twin's order."""
    values = [getattr(card, name) for name in twin.decode(card.image)._fields]
    return *values[:-1], b"".join(values[-1])


def asked_again(questions: list) -> bytes:
    return b"".join(bytes([one.kind]) + one.wallet_number.to_bytes(2, "big") + bytes([one.curve]) + len(one.message).to_bytes(2, "big")
                    + one.message for one in questions)


def response_of(response) -> dict:
    return {"word": response.word, **{field.tag: field.value for field in response.fields}}


def one_tap(chance: Chance, image: bytes, reached: set) -> bytes:
    """A tap by the package and by the twin; the image that it left."""
    request, lent, provider = next_request(chance, decode(image)), lent_by_chance(chance, image), Given()
    asked = twin.ask(lent.image, request, lent.draw)
    provider.answers = answers_by_chance(chance, asked.questions)
    settled = twin.settle(lent.image, request, lent.draw, provider.answers)
    assert library().ask(lent.image, request, lent.draw) == asked, "the result of ask, its reason with it, or the questions"
    try:
        card = Card.from_image(lent.image, provider)
        assert read_off(card) == tuple(decode(lent.image)), "a value of the image"
        response, number = card.tap(request, lent.draw), 0
        assert (response.bytes, card.image) == (settled.response, settled.image), "the response, or the next image"
        assert response_of(response) == fields(settled.response), "the fields"
        assert asked_again(provider.asked) == asked.questions, "the questions"
        assert (response.reason, response.why) == (settled.reason, REASONS.get(settled.reason, "")), "the reason, or its words"
        waits = settled.word == 0x9789
        assert (response.refused, response.paused) == (settled.reason > 0, waits), "refused, or paused"
        assert response.ok == (not response.refused and not response.paused), "ok"
        assert response.seconds_left == (decode(settled.image).seconds_left if waits else None), "the seconds left"
    except NoTap as why:
        number = why.number
        assert number in (1, 3) or card.image == lent.image, "the image after no tap"
    assert number == settled.number, f"number {number} for {settled.number}"
    reached |= {("number", number), ("reason", settled.reason)}
    if number == 0:
        reached.add(("pace", pace(Paced(decode(lent.image), request, settled))))
    return settled.image or image


def pace(tap: Paced) -> str:
    if tap.waits:
        return "waits on" if tap.again else "waits"
    if tap.refused:
        return "counted" if tap.counted else "refused"
    return "goes on"


def power_off(chance: Chance, image: bytes, reached: set) -> bytes:
    """The image that a power-off left, by the package and by the twin."""
    lent = damaged_image(chance, image) if chance.often(0.3) else image
    expected = twin.power_off(lent)
    assert library().power_off(lent) == (expected.number, expected.image or b""), "the number of a power-off, or its image"
    if expected.number:
        reached.add(("power-off", "no card"))
        return image
    card = Card.from_image(lent, Given())
    card.power_off()
    assert card.image == expected.image, "the image after a power-off"
    reached.add(("power-off", "with a request" if decode(lent).held_request else "without"))
    return expected.image


def by_chance():
    chance, reached, image = Chance("python"), set(), b""
    for at in range(TAPS):
        if at % 30 == 0:
            image = encode(first_card(chance))
        try:
            image = (power_off if chance.often(0.08) else one_tap)(chance, image, reached)
        except AssertionError as differs:
            check(named(f"tap {at} by chance"), False, f"{differs}")
            return
    wanted = {("number", number) for number in (0, 1, 3, 4)} | {("reason", reason) for reason in (0, *REASONS)}
    wanted |= {("pace", what) for what in ("waits", "waits on", "counted", "refused", "goes on")}
    wanted |= {("power-off", what) for what in ("with a request", "without", "no card")}
    check(named(f"{TAPS} taps by chance as the twin answers"), reached == wanted, f"not reached: {sorted(wanted - reached)}")


def one_sheet(sheet: bytes) -> tuple:
    try:
        return 0, Card.from_sheet(sheet, MadeUp()).image
    except BadSheet as bad:
        return bad.line, None


def sheets_by_chance():
    chance = Chance("sheets")
    sheets = [chance.choice((good_sheet, damaged_sheet, damaged_sheet))(chance) for _ in range(TAPS // 3)]
    different = [sheet for sheet in sheets if one_sheet(sheet) != twin.personalise(sheet)]
    check(named(f"{len(sheets)} sheets by chance as the twin reads them"), not different, str(different[:1]))


# ---------------------------------------------------------------- bad input


def bad_lines():
    """Each line bad in turn: its number is said, and the name with which the line has to begin."""
    lines = SHEET.splitlines(keepends=True)
    for number, line in enumerate(lines, 1):
        said = raised(BadSheet, Card.from_sheet, "".join([*lines[: number - 1], line.replace("\t", " "), *lines[number:]]), MadeUp())
        wanted = rf"line {number} is bad; it has to be {line.split()[0]}, a tab and [\w ]+, ended by a line feed"
        check(named(f"a sheet with line {number} bad"), re.fullmatch(wanted, said), said)
    for more in ("\n", "pause\t61\n", "pause\t05\n", "pause\t\n", "pause\t3", "pause 3\n", "Pause\t3\n", "uid\t00\n"):
        same(named(f"a sheet with {more!r} after it"), raised(BadSheet, Card.from_sheet, SHEET + more, MadeUp()),
             "line 15 is bad; it has to be nothing, or pause, a tab and a number from 0 to 60 without leading zeros, ended by a line feed")
    for more in ("\n", "pause\t3\n"):
        same(named(f"a sheet with a pause and {more!r}"), raised(BadSheet, Card.from_sheet, f"{SHEET}pause\t3\n{more}", MadeUp()),
             "line 16 is bad; it has to be nothing after line 15")
    fresh = Card.from_sheet(SHEET, MadeUp()).image
    for pause in (0, 1, 59, 60):
        card = Card.from_sheet(f"{SHEET}pause\t{pause}\n", MadeUp())
        same(named(f"a sheet with a pause of {pause}"), (card.pause, card.image), (pause, fresh[:96] + bytes([pause]) + fresh[97:]))
    same(named("a sheet from before activation"), raised(BadSheet, Card.from_sheet, "".join(lines[:13]), MadeUp()),
         "line 14 is bad; it has to be seed, a tab and 32 hex digits in capitals, ended by a line feed")
    check(named("an empty sheet"), raised(BadSheet, Card.from_sheet, "", MadeUp()).startswith("line 1 is bad"))


def bad_images():
    image = Card.from_sheet(SHEET, MadeUp()).image
    no_card = "the image is no card (docs/IMAGE.md)"
    for words, wrong in (("none", b""), ("one byte short", image[:-1]), ("one byte long", image + b"\0"), ("long", bytes(100_000)),
                         ("Status 0", image[:104] + b"\0" + image[105:]), ("zeros", bytes(len(image))),
                         ("a pause of 61", image[:96] + bytes([61]) + image[97:]),
                         ("61 wrong codes", image[:1805] + bytes([61]) + image[1806:]),
                         ("a second left, and no request", image[:1806] + b"\1" + image[1807:]),
                         ("a request, and no second left", image[:1808] + b"\6" + image[1809:]),
                         ("from before the delay", bench.without(bench.NO_WAIT, image)),
                         ("from before activation, without a seed", bench.without(bench.NO_SEED, image)),
                         ("signatures and no wallet", image[:2833] + b"\1" + b"s" * 64 + image[2898:])):
        same(named(f"an image, {words}"), raised(NotACard, Card.from_image, wrong, MadeUp()), no_card)
        same(named(f"an image, {words}: a power-off"), library().power_off(wrong) if len(wrong) <= 65536 else (1, b""), (1, b""))
    same(named("an image of text"), raised(TypeError, Card.from_image, "card", MadeUp()), "an image is to be bytes, not str")


def bad_taps():
    provider = Given()
    card = Card.from_sheet(SHEET, provider)
    before = card.image
    same(named("a draw of 31 bytes"), raised(WrongDraw, card.tap, read_card(card), bytes(31)), "the draw has not 32 bytes")
    said = raised(WrongAnswers, card.tap, create_wallet(card))
    same(named("answers that do not fit"), said, "the provider's answers have not the shape that the questions ask for")
    same(named("a request in hex"), raised(TypeError, card.tap, "00F2"), "a request is to be bytes, not str")
    same(named("a number as a request"), raised(TypeError, card.tap, 5), "a request is to be bytes, not int")
    provider.answers = None
    same(named("a provider without an answer"), raised(TypeError, card.tap, create_wallet(card)),
         "a provider's answer is to be bytes, not NoneType")
    same(named("a request without end"), raised(ValueError, card.tap, bytes(70_000)),
         "70000 bytes are more than the 65536 that a call takes")
    same(named("the card is as it was"), card.image, before)
    same(named("a value cannot be set"), raised(AttributeError, setattr, card, "remaining", 5),
         "remaining can only be read: a tap changes a card, and Card.from_image makes another")
    provider.answers = b""
    for words, request in (("empty", b""), ("of one byte", b"\0"), ("of 1,025 bytes", bytes(1025)), ("of 65,536 bytes", bytes(65536))):
        same(named(f"a request {words} is refused"), card.tap(request).bytes.hex(), "6700")


# ---------------------------------------------------------------- several at once


def threads():
    """Threads on one card and each on its own: no tap is lost, and none gets another's response."""
    shared = Card.from_sheet(SHEET, MadeUp())
    shared.tap(create_wallet(shared))
    wrong = []

    def work(number: int):
        own = Card.from_sheet(SHEET.replace("AA00000000016675", f"AA0000000000000{number}"), MadeUp())
        own.tap(create_wallet(own))
        for at in range(10):
            digest = sha256(f"{number} {at}")
            for card in (shared, own):
                if card.tap(sign(card, [digest]))["Signature"] != MadeUp.signature(digest):
                    wrong.append((number, at))
        if own.signed_hashes != 10:
            wrong.append(own)

    at_once(work)
    same(named("eight threads on one card, and each on its own"), (wrong, shared.signed_hashes, shared.remaining), ([], 80, 920))


def forked():
    """A child goes on by itself, and the parent after it. Where they wait for one another, an alarm ends both."""
    card = Card.from_sheet(SHEET, MadeUp())
    child = os.fork()
    signal.alarm(30)
    if child == 0:
        os._exit(0 if card.tap(read_card(card)).ok and card.tap(create_wallet(card)).ok else 1)
    answers = [card.tap(read_card(card)).number("Status") for _ in range(20)]
    same(named("a process and its child"), (os.waitstatus_to_exitcode(os.waitpid(child, 0)[1]), answers), (0, [1] * 20))
    signal.alarm(0)


def served_again():
    """The process that serves is killed, and broken off: the next call finds another, and gets its own answer."""
    card = Card.from_sheet(SHEET, MadeUp())
    one = library().process
    one.kill()
    one.wait()
    check(named("a killed server is told of"), raised(merelstof.NoLibrary, card.tap, read_card(card)).endswith("; the next call starts it anew"))
    same(named("and the next tap is answered"), card.tap(read_card(card)).word, 0x9000)
    reading = library().process.stdout

    class BrokenOff:
        def read(self, _):
            raise KeyboardInterrupt

        close = reading.close

    library().process.stdout = BrokenOff()
    try:
        card.tap(create_wallet(card))
    except KeyboardInterrupt:
        pass
    same(named("a call that was broken off leaves no answer behind"), card.tap(read_card(card)).number("Status"), 1)


check(named("the way is taken"), type(library()) is {"loaded": Loaded, "served": Served}[WAY], str(library()))
lessons()
by_chance()
sheets_by_chance()
bad_lines()
bad_images()
bad_taps()
threads()
forked()
if WAY == "served":
    served_again()
end()

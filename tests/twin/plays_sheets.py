"""Recordings with a damaged sheet, which print the number of its bad line and nothing else; with a pause on it and with what is none;
and with no tap at all."""

from twin.recorder import Recording, sheet_lines
from twin.recording import LONGEST_LINE

TAP = b"\t".join((b"00F2", b"00" * 32, b"", b"6700"))
GOOD = sheet_lines()
WRONG = (b"cid\tAA0000000001667", b"pin1\t" + b"1a" * 32, b"pin2\t" + b"22" * 31, b"cvc\t12A", b"curve\tsecp256r1", b"max\t4294967296",
         b"reusable\t2", b"usecvc\t", b"setpin1 1", b"setpin3\t1", b"nopurge\t0 ", b"replay\t1\r", b"\tactive\t1", b"seed\t" + b"0" * 31)
LAST = len(GOOD)
LINES = range(1, LAST + 1)
PAUSE_LINE, PAUSE = LAST + 1, b"pause\t5"
# What is no pause. As line 15 it is no tap either.
NO_PAUSE = (
    b"pause\t61", b"pause\t99", b"pause\t100", b"pause\t316", b"pause\t4294967301", b"pause\t05", b"pause\t00", b"pause\t",
    b"pause\t 5", b"pause\t5 ", b"pause\t5\t", b"pause\t\t5", b"pause\t5\r", b"pause\t5\0", b"pause\t-5", b"pause\t+5", b"pause\t5A",
    b"pause\tA", b"pause", b"pause5", b"pause 5", b"Pause\t5", b"PAUSE\t5", b"paus\t5", b"pauses\t5", b" pause\t5", b"\tpause\t5",
    b"seed\t5", b"uid\t00000000", b"5", b"",
)


def begun(book: list, name: str, bad: int, lines: list) -> Recording:
    recording = Recording(f"sheet: {name}", bad)
    for line in lines:
        recording.line(line)
    book.append(recording)
    return recording


def each_line(book: list):
    """Where a line is missing or stands twice, another stands in the place of the next."""
    for at in LINES:
        before, line, after = GOOD[: at - 1], GOOD[at - 1], GOOD[at:]
        begun(book, f"line {at} missing", at, before + after + [TAP])
        begun(book, f"line {at} wrong", at, before + [WRONG[at - 1]] + after + [TAP])
        begun(book, f"line {at} empty", at, before + [b""] + after + [TAP])
        begun(book, f"line {at} twice", at + 1, before + [line, line] + after + [TAP])
        if after:
            begun(book, f"ends after line {at}", at + 1, before + [line])


def some_taps(recording: Recording, taps: int, *lines: bytes):
    if taps:
        recording.line(TAP, taps)
    for line in lines:
        recording.line(line)


def pauses(book: list):
    """Every line 15 that is exactly a pause is the sheet's, prints nothing, and moves the taps by one line."""
    for seconds in (0, 1, 9, 10, 59, 60):
        lines = GOOD + [b"pause\t%d" % seconds]
        some_taps(begun(book, f"a pause of {seconds}", 0, lines), 2)
        for taps in (0, 1, 99):
            some_taps(begun(book, f"a pause of {seconds}, a bad line after {taps} taps", PAUSE_LINE + 1 + taps, lines), taps, b"00F2", TAP)


def no_pauses(book: list):
    for line in NO_PAUSE:
        begun(book, f"line {PAUSE_LINE} is {line!r}", PAUSE_LINE, GOOD + [line, TAP])
        begun(book, f"line {PAUSE_LINE + 1} is {line!r}", PAUSE_LINE + 1, GOOD + [PAUSE, line, TAP])


def pauses_elsewhere(book: list):
    """A good pause line in any other place is a bad line, also a second one."""
    for at in LINES:
        begun(book, f"a pause before line {at}", at, GOOD[: at - 1] + [PAUSE] + GOOD[at - 1 :] + [TAP])
    begun(book, "a pause in place of the seed", LAST, GOOD[:-1] + [PAUSE, TAP])
    begun(book, "a pause after a bad line", 6, GOOD[:5] + [WRONG[5]] + GOOD[6:] + [PAUSE, TAP])
    for taps in (1, 2, 99):
        some_taps(begun(book, f"a pause after {taps} taps", PAUSE_LINE + taps, GOOD), taps, PAUSE, TAP)
    for taps in (0, 1, 2, 99):
        some_taps(begun(book, f"a second pause after {taps} taps", PAUSE_LINE + 1 + taps, GOOD + [PAUSE]), taps, PAUSE, TAP)


def pauses_at_the_end(book: list):
    """Without a line feed, or cut short, or too long, line 15 is no pause; after a good one nothing may lack its line feed."""
    for text in (PAUSE, b"pause\t60", b"pause\t", b"pause", b"p"):
        begun(book, f"ends with {text!r}, without its line feed", PAUSE_LINE, GOOD).part(text)
    for text in (PAUSE, b"p", b"0", TAP):
        begun(book, f"a pause, then {text!r} without its line feed", PAUSE_LINE + 1, GOOD + [PAUSE]).part(text)
    for length in (LONGEST_LINE, LONGEST_LINE + 1, 20_000):
        recording = begun(book, f"a pause line of {length} bytes", PAUSE_LINE, GOOD)
        recording.part(b"pause\t6")
        recording.part(b"0", length - len(b"pause\t6"))
        for line in (b"", TAP):
            recording.line(line)


def long_lines(book: list):
    for at, length in ((1, 8192), (1, 8193), (6, 8193), (LAST, 8192), (LAST, 8193), (1, 20_000), (LAST, 20_000)):
        recording = begun(book, f"line {at} of {length} bytes", at, GOOD[: at - 1])
        recording.part(GOOD[at - 1])
        recording.part(b"0", length - len(GOOD[at - 1]))
        for line in [b""] + GOOD[at:] + [TAP]:
            recording.line(line)


def no_sheet(book: list):
    begun(book, "an empty file", 1, [])
    begun(book, "only a line feed", 1, [b""])
    begun(book, "only line feeds", 1, [b""] * 20)
    begun(book, "only taps", 1, [TAP] * 2)
    begun(book, "one byte", 1, []).part(b"c")
    begun(book, "NUL", 1, []).part(b"\0")
    begun(book, "20000 zeros", 1, []).part(b"0", 20_000)


def cut(book: list):
    for at in LINES:
        begun(book, f"cut in line {at}", at, GOOD[: at - 1]).part(GOOD[at - 1][: -1 - at % 4])
    for at in (1, 2, LAST - 1, LAST):
        begun(book, f"ends with line {at}, without its line feed", at, GOOD[: at - 1]).part(GOOD[at - 1])


def no_tap(book: list):
    book.append(Recording("no tap, secp256k1").sheet())
    book.append(Recording("no tap, ed25519").sheet(curve="ed25519", max="4294967295"))
    book.append(Recording("no tap, not activated").sheet(active="0", max="1"))
    book.append(Recording("no tap, a pause").sheet(pause="60"))


GROUPS = (each_line, pauses, no_pauses, pauses_elsewhere, pauses_at_the_end, long_lines, no_sheet, cut, no_tap)

"""Recordings with a bad line, one of every kind in every field; the longest lines; the most taps; ends without a line feed.

Before the bad line stand some good taps, whose lines stay, and after it mostly one more, which must not be played. Every other recording
has a pause on its sheet, which moves all lines after it by one.
"""

from twin.bench import CREATE_WALLET, DRAW, PIN1, READ_CARD, confirmed, plain, sign
from twin.recorder import Recording, sheet_lines
from twin.script import hexed

FIRST_TAP = len(sheet_lines()) + 1  # its line in the file
LONGEST_LINE = 8192
TABS = 3
READ = plain(READ_CARD, (0x10, PIN1))
SHORT = bytes.fromhex("00F2")  # too short for a request: 6700, and the answers are not looked at
DRAW_DIGITS = hexed(DRAW).encode()
FIELDS = ("request", "draw", "answers", "expected")
GOOD = (b"00FB0C", DRAW_DIGITS, b"ABCDEF", b"6700")
SHORTEST = (b"00F2", DRAW_DIGITS, b"", b"6700")
EXPECTS_4 = SHORTEST[:3] + (b"4",)
TAPS_BEFORE = (0, 1, 2, 3, 9, 99)
# The bytes next to the digits and the capitals, small letters, blanks and signs, and such with the top bit set.
NO_DIGITS = (0x00, 0x0D, 0x20, 0x2B, 0x2D, 0x2F, 0x3A, 0x40, 0x47, 0x60, 0x61, 0x66, 0x67, 0x7F, 0x80, 0xB0, 0xC1, 0xFF)


def joined(*values: bytes) -> bytes:
    return b"\t".join(values)


# ---------------------------------------------------------------- bad lines


def bad_line(book: list, name: str, text: bytes):
    more, taps = divmod(len(book), len(TAPS_BEFORE))
    paused, taps = more % 2, TAPS_BEFORE[taps]
    recording = Recording(f"bad line: {name}", bad=FIRST_TAP + paused + taps).sheet(**dict(pause="60") if paused else {})
    if taps == 1:
        recording.tap(READ)
    elif taps:
        recording.tap(SHORT, times=taps)
    recording.line(text)
    recording.tap(SHORT)
    book.append(recording)


def bad_field(book: list, name: str, field: int, value: bytes):
    bad_line(book, f"{FIELDS[field]}, {name}", joined(*GOOD[:field], value, *GOOD[field + 1 :]))


def bytes_in_fields(book: list):
    for field, value in enumerate(GOOD):
        for number, byte in enumerate(NO_DIGITS):
            words, at = (("first", 0), ("inner", len(value) // 2), ("last", len(value) - 1))[(field + number) % 3]
            bad_field(book, f"{words} digit is byte {byte:02X}", field, value[:at] + bytes([byte]) + value[at + 1 :])
        bad_field(book, "small letters", field, value[:-2].lower() + b"ab")


def digits_in_fields(book: list):
    for field, value in enumerate(GOOD):
        bad_field(book, "a digit less", field, value[:-1])
        bad_field(book, "a digit more", field, value + b"0")
        bad_field(book, "one digit", field, b"9")
        bad_field(book, "a blank before it", field, b" " + value)
        bad_field(book, "a blank after it", field, value + b" ")
        if FIELDS[field] != "answers":
            bad_field(book, "empty", field, b"")
        if FIELDS[field] != "expected":
            bad_field(book, "4", field, b"4")


def expectations(book: list):
    for value in (b"444", b"44444", b"4 ", b" 4", b"4\r", b"4\0", b"4a", b"0", b"5", b"x", b"-4", b"4.", b"+4"):
        bad_field(book, repr(value)[1:], FIELDS.index("expected"), value)


def draws(book: list):
    for length in (0, 1, 2, 16, 30, 31, 33, 34, 64, 255, 288):
        bad_field(book, f"{length} bytes", FIELDS.index("draw"), b"5A" * length)


def tabs(book: list):
    whole, (request, draw, answers, expected) = joined(*GOOD), GOOD
    rows = (
        ("an empty line", b""), ("one blank", b" "), ("a CR alone", b"\r"), ("a NUL alone", b"\0"), ("4 alone", b"4"),
        ("one tab", b"\t"), ("two tabs", b"\t\t"), ("three tabs", b"\t\t\t"), ("four tabs", b"\t\t\t\t"),
        ("no tab, the request alone", request), ("no tab, all fields together", b"".join(GOOD)),
        ("one tab, request and draw", joined(request, draw)), ("two tabs, no answers", joined(request, draw, expected)),
        ("two tabs, no expectation", joined(request, draw, answers)), ("two tabs, no draw", joined(request, answers, expected)),
        ("three tabs, no expectation", joined(request, draw, b"", b"")), ("four tabs, one at the end", whole + b"\t"),
        ("four tabs, one at the start", b"\t" + whole), ("four tabs, a fifth field", joined(whole, b"6700")),
        ("four tabs, two before the answers", joined(request, draw, b"", answers, expected)),
        ("four tabs, one in the request", joined(b"00", b"F2", draw, answers, expected)), ("five tabs", whole + b"\t\t"),
        ("two taps", joined(whole, whole)), ("blanks for tabs", whole.replace(b"\t", b" ")),
        ("a blank at the end", whole + b" "), ("a blank at the start", b" " + whole), ("CR before the line feed", whole + b"\r"),
        ("NUL at the end", whole + b"\0"), ("draw before request", joined(draw, request, answers, expected)),
        ("a comment", b"# a comment"), ("a line of the sheet", b"active\t1"), ("what a play ends with", b"line\t14"),
        ("what a play prints", b"1\tsame\t6700"),
    )
    for name, text in rows:
        bad_line(book, name, text)


# ---------------------------------------------------------------- long lines


def long_line(recording: Recording, length: int, field: int, values: tuple, ended: bool = True):
    """A line of this length: one of the values is filled up with zeros."""
    recording.part(joined(*values[: field + 1]))
    recording.part(b"0", length - TABS - sum(map(len, values)))
    last = b"".join(b"\t" + value for value in values[field + 1 :])
    (recording.line if ended else recording.part)(last)


def long_fields(book: list):
    """Three tabs and whole bytes make an odd length, so a good line of 8,192 bytes has to expect `4`."""
    create = hexed(confirmed(CREATE_WALLET)).encode(), DRAW_DIGITS, b"04", b"9000"
    kinds = (("request", 0, SHORTEST), ("draw", 1, (b"00F2", b"", b"", b"6700")), ("answers, not looked at", 2, SHORTEST),
             ("answers of the wrong shape", 2, create), ("expectation", 3, SHORTEST))
    for name, field, values in kinds:
        for length in (LONGEST_LINE - 1, LONGEST_LINE, LONGEST_LINE + 1, LONGEST_LINE + 2, 20_000, 20_001):
            if length % 2 == 0 and name == "expectation":
                continue
            bad = FIRST_TAP + 1 if length > LONGEST_LINE or name == "draw" else 0
            recording = Recording(f"a line of {length} bytes, long {name}", bad).sheet()
            recording.tap(SHORT)
            long_line(recording, length, field, values if length % 2 else values[:3] + (b"4",))
            recording.tap(SHORT, times=2)
            book.append(recording)


def long_runs(book: list):
    for name, byte in (("zeros", b"0"), ("tabs", b"\t"), ("blanks", b" "), ("NUL", b"\0")):
        for times in (LONGEST_LINE, LONGEST_LINE + 1, 20_000):
            recording = Recording(f"a line of {times} {name}", bad=FIRST_TAP + 1).sheet()
            recording.tap(SHORT)
            recording.part(byte, times)
            recording.line(b"")
            recording.tap(SHORT)
            book.append(recording)


def good_beginnings(book: list):
    """A long line of which the first 8,192 bytes would be a good one."""
    for name, after in (("a 4", b"4"), ("a CR", b"\r"), ("a byte of hex", b"00"), ("a whole tap", joined(*GOOD))):
        recording = Recording(f"a good line of 8192 bytes, then {name}", bad=FIRST_TAP).sheet()
        long_line(recording, LONGEST_LINE, 0, EXPECTS_4, ended=False)
        recording.line(after)
        recording.tap(SHORT)
        book.append(recording)


def many_long_lines(book: list):
    recording = Recording("ten long lines with taps between them, then a bad one", bad=FIRST_TAP + 20).sheet()
    for number in range(10):
        long_line(recording, LONGEST_LINE - number % 2, 0, SHORTEST if number % 2 else EXPECTS_4)
        recording.tap(READ if number % 3 else SHORT)
    long_line(recording, LONGEST_LINE + 1, 0, SHORTEST)
    book.append(recording)


# ---------------------------------------------------------------- the most taps


def most_taps(book: list):
    """Each begins with a wallet and a SIGN, so that there is something to sum."""
    rows = (("10000 taps", 10_000, 0, b""), ("10001 taps", 10_001, 0, b""), ("10001 taps after a pause", 10_001, 1, b""),
            ("10000 taps, then a bad line", 10_000, 0, b"00F2\n"), ("10000 taps, then a byte", 10_000, 0, b"0"))
    for name, taps, seconds, after in rows:
        bad = FIRST_TAP + min(taps, 10_000) + seconds if after or taps > 10_000 else 0
        recording = Recording(name, bad).sheet(curve="ed25519", max="7", **dict(pause=f"{seconds}") if seconds else {})
        for sent in (confirmed(CREATE_WALLET), sign(1)):
            recording.tap_after(seconds, sent)
        recording.tap(SHORT, times=taps - 2 * (1 + seconds))
        if after:
            (recording.line if after.endswith(b"\n") else recording.part)(after.rstrip(b"\n"))
        book.append(recording)


# ---------------------------------------------------------------- the last line


def ends(book: list):
    good = joined(*SHORTEST)
    rows = (("a good tap", good), ("half a tap", good[:40]), ("a tap but for its last digit", good[:-1]), ("one digit", b"4"),
            ("a tab", b"\t"), ("a blank", b" "), ("a CR", b"\r"), ("NUL", b"\0"), ("byte FF", b"\xff"),
            ("a good tap and a CR", good + b"\r"), ("a tap that expects 4", joined(*EXPECTS_4)))
    for number, (name, text) in enumerate(rows):
        recording = Recording(f"no line feed after the last line, {name}", bad=FIRST_TAP + number % 3).sheet()
        for _ in range(number % 3):
            recording.tap(SHORT)
        recording.part(text)
        book.append(recording)


def long_ends(book: list):
    for length in (LONGEST_LINE - 1, LONGEST_LINE, LONGEST_LINE + 1, 20_000, 100_000):
        recording = Recording(f"no line feed after the last line, of {length} bytes", bad=FIRST_TAP + 1).sheet()
        recording.tap(SHORT)
        long_line(recording, length, 0, SHORTEST if length % 2 else EXPECTS_4, ended=False)
        book.append(recording)


GROUPS = (bytes_in_fields, digits_in_fields, expectations, draws, tabs, long_fields, long_runs, good_beginnings, many_long_lines,
          most_taps, ends, long_ends)

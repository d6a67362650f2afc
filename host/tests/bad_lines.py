"""Recordings with a bad line: of every kind, with its number and a piece of the reason that the host gives; and recordings spoilt by
chance."""

import random

from rig import SHEETS

DRAW = "AB" * 32
GOOD = f"00F2\t{DRAW}\t\t6700\n"
TAP_LINES = (
    ("small letters", GOOD.replace("00F2", "00f2"), "'f' at column 3 is a small letter, and hex has capitals here"),
    ("small letters at the end", GOOD.replace("6700", "67ab"), "'a' at column 74 is a small letter, and hex has capitals here"),
    ("CR LF", GOOD.replace("\n", "\r\n"), "it ends with CR LF, and has to end with a line feed alone"),
    ("a byte order mark", "\ufeff" + GOOD, "a byte order mark stands before it"),
    ("two tabs", f"00F2\t{DRAW}\t6700\n", "it has 2 tabs, and three part its four fields"),
    ("one tab", "00F2\t6700\n", "it has 1 tab, and three part its four fields"),
    ("no tab", "00F2\n", "it has 0 tabs, and three part its four fields"),
    ("five tabs", GOOD.replace("\n", "\t\t\n"), "it has 5 tabs, and three part its four fields"),
    ("an empty line", "\n", "it has 0 tabs, and three part its four fields"),
    ("another sign", GOOD.replace("00F2", "0xF2"), "'x' at column 2 is no hex digit"),
    ("a blank", GOOD.replace("\t\t", "\t \t"), "' ' at column 71 is no hex digit"),
    ("a NUL", GOOD.replace("00F2", "00\0F"), "the byte 00 at column 3 is no hex digit"),
    ("odd digits in the request", GOOD.replace("00F2", "00F"), "3 digits in the request, and a byte has two"),
    ("odd digits in the answers", GOOD.replace("\t\t", "\tA\t"), "1 digit in the answers, and a byte has two"),
    ("odd digits in the response", GOOD.replace("6700", "670"), "3 digits in the expected response, and a byte has two"),
    ("a 4 too many", GOOD.replace("6700", "444"), "3 digits in the expected response, and a byte has two"),
    ("a short draw", GOOD.replace(DRAW, DRAW[2:]), "the draw has 31 bytes, and has to have 32"),
    ("a long draw", GOOD.replace(DRAW, DRAW + "AB"), "the draw has 33 bytes, and has to have 32"),
    ("no draw", GOOD.replace(DRAW, ""), "the draw is empty"),
    ("an empty request", GOOD[4:], "the request is empty"),
    ("no response", GOOD.replace("6700", ""), "the expected response is empty"),
    ("no line feed", GOOD[:-1], "the file ends in it, before its line feed"),
    ("too long", "00" * 4063 + GOOD[4:], "it has more than 8192 bytes"),
    ("far too long", "0" * 100000, "it has more than 8192 bytes"),
)
SHEET = SHEETS["secp256k1"].read_text()


def with_line(number: int, line: str) -> str:
    lines = SHEET.splitlines(keepends=True)
    return "".join(lines[: number - 1] + [line] + lines[number:])


SHEETS_OF_BAD_LINES = (
    ("CR LF", SHEET.replace("\n", "\r\n"), 1, "cid, a tab and 16 hex digits in capitals, ended by a line feed; it ends with CR LF"),
    ("a byte order mark", "\ufeff" + SHEET, 1, "cid, a tab and 16 hex digits in capitals, ended by a line feed; a byte order mark stands"),
    ("small letters", SHEET.replace("AA0000", "aa0000"), 1, "cid, a tab and 16 hex digits in capitals, ended by a line feed"),
    ("another curve", with_line(5, "curve\tp256\n"), 5, "curve, a tab and secp256k1 or ed25519, ended by a line feed"),
    ("a number from 0", with_line(6, "max\t01\n"), 6, "max, a tab and a number from 1 to 4294967295 without leading zeros"),
    ("a sheet that ends early", "".join(SHEET.splitlines(keepends=True)[:7]), 8, "usecvc, a tab and 0 or 1, ended by a line feed; the file ends before it"),
    ("a sheet without its last line feed", SHEET[:-1], 14, "seed, a tab and 32 hex digits in capitals, ended by a line feed; the file ends in it"),
    ("thirteen lines, and then a tap", "".join(SHEET.splitlines(keepends=True)[:13]) + GOOD, 14, "seed, a tab and 32 hex digits in capitals"),
    ("nothing", "", 1, "cid, a tab and 16 hex digits in capitals, ended by a line feed; the file ends before it"),
)
PAUSE, OF_SHEET = "pause\t3\n", "a pause is the sheet's, as line 15 alone"
PAUSES = (
    ("a pause of 61", "pause\t61\n", 15, OF_SHEET), ("a pause of 05", "pause\t05\n", 15, OF_SHEET), ("a pause of nothing", "pause\t\n", 15, OF_SHEET),
    ("a pause without its tab", "pause\n", 15, "it has 0 tabs"), ("a pause without its line feed", "pause\t3", 15, "the file ends in it"),
    ("a pause with CR LF", "pause\t3\r\n", 15, "it ends with CR LF"), ("a second pause", PAUSE * 2, 16, OF_SHEET),
    ("a pause behind a tap", GOOD + PAUSE, 16, OF_SHEET), ("a pause, and another behind a tap", PAUSE + GOOD + PAUSE, 17, OF_SHEET),
    ("a bad tap behind a pause", PAUSE + GOOD + "00F2\n", 17, "it has 0 tabs"), ("an empty line behind a pause", PAUSE + "\n", 16, "it has 0 tabs"),
)


def bad_recordings():
    """Name, recording, number and reason of each."""
    for name, line, reason in TAP_LINES:
        yield name, (SHEET + GOOD + line).encode(), 16, reason
        yield f"behind a pause: {name}", (SHEET + PAUSE + line).encode(), 16, reason
    for name, text, number, reason in SHEETS_OF_BAD_LINES:
        yield f"the sheet has {name}", text.encode(), number, reason
    for name, text, number, reason in PAUSES:
        yield name, (SHEET + text).encode(), number, reason
    for name, sheet, number in (("tap 10,001", SHEET, 10_015), ("tap 10,001 behind a pause", SHEET + PAUSE, 10_016)):
        yield name, (sheet + GOOD * 10_001).encode(), number, "a recording has at most 10000 taps"


def spoilt(text: bytes, chance: random.Random) -> bytes:
    """A byte changed, put in or taken out."""
    at, byte = chance.randrange(len(text)), chance.choice(b"\t\n\r 04AFafz\xef")
    return text[:at] + chance.choice((bytes([byte]), bytes([byte]) + text[at : at + 1], b"")) + text[at + 1 :]

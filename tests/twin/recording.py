"""A recording played on the twin: a sheet, then a line for each tap. Run: python3 tests/twin/recording.py FILE"""

import os
import re
import sys

sys.path.insert(0, os.path.dirname(os.path.dirname(os.path.abspath(__file__))))
from twin.card import personalise, settle
from twin.commands import HASH_LENGTH
from twin.image import decode
from twin.request import Tag, fields_of, number, payload_of
from twin.sheet import PAUSE, SHEET, one_line

LONGEST_LINE = 8192
MOST_TAPS = 10_000
WRONG_SHAPE = "4"
ONE_TAP = re.compile(rb"""
    ((?:[0-9A-F]{2})+) \t   # the request
    ([0-9A-F]{64}) \t       # the draw
    ((?:[0-9A-F]{2})*) \t   # the answers
    ((?:[0-9A-F]{2})+|4)    # the response that is expected
    \n""", re.VERBOSE)


class Sums:
    """What the taps have made, as far as requests and responses tell."""

    def __init__(self):
        self.signs = self.hashes = 0

    def add(self, request: bytes, response: bytes):
        if not 0x9000 <= number(response[-2:]) <= 0x9003:
            return
        ins, fields = request[1], fields_of(payload_of(request))
        if ins in (0xF8, 0xFC):
            self.signs = 0
        if ins == 0xFB and Tag.HASH_ARRAY in fields:
            self.signs += 1
            self.hashes += len(fields[Tag.HASH_ARRAY]) // HASH_LENGTH


class Play:
    """A card on its way through a recording."""

    def __init__(self, image: bytes):
        self.image, self.sums = image, Sums()

    def tap(self, request: bytes, draw: bytes, answers: bytes) -> str:
        """The response as it is printed."""
        settled = settle(self.image, request, draw, answers)
        if settled.number == 4:
            return WRONG_SHAPE
        assert settled.number == 0, settled
        self.image = settled.image
        self.sums.add(request, settled.response)
        return settled.response.hex().upper()

    def last_line(self) -> str:
        card = decode(self.image)
        return f"{card.remaining}\t{card.signed_hashes}\t{self.sums.signs}\t{self.sums.hashes}\n"


def lines_of(text: bytes) -> list:
    """Each with its line feed, which the last one may lack."""
    return re.findall(rb"[^\n]*\n|[^\n]+\Z", text)


def parts_of(line: bytes):
    """Request, draw, answers and the expected response of a tap, or None where the line is bad."""
    found = ONE_TAP.fullmatch(line)
    if not found or len(line) > LONGEST_LINE + 1:
        return None
    *sent, expected = (part.decode() for part in found.groups())
    return *map(bytes.fromhex, sent), expected


def bad_line(at: int) -> str:
    return f"line\t{at}\n"


def sheet_length(lines: list) -> int:
    """How many of the file's first lines are the sheet's: line 15 where it is exactly a pause, else it is the first tap."""
    return len(SHEET) + any(one_line(*PAUSE, line) for line in lines[len(SHEET) :][:1])


def played(text: bytes) -> bytes:
    """All that a play of this file prints."""
    lines = lines_of(text)
    sheet = sheet_length(lines)
    bad, image = personalise(b"".join(lines[:sheet]))
    return (bad_line(bad) if bad else "".join(played_taps(Play(image), lines[sheet:], sheet + 1))).encode()


def played_taps(play: Play, lines: list, first: int):
    """What is printed for the lines after the sheet, the first of them being this one of the file."""
    for tap, line in enumerate(lines, 1):
        parts = parts_of(line)
        if parts is None or tap > MOST_TAPS:
            yield bad_line(first + tap - 1)
            return
        *sent, expected = parts
        response = play.tap(*sent)
        yield f"{tap}\t{'same' if response == expected else 'other'}\t{response}\n"
    yield play.last_line()


if __name__ == "__main__":
    with open(sys.argv[1], "rb") as recording:
        sys.stdout.buffer.write(played(recording.read()))

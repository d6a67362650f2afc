"""Cards for the page, which keeps each card's image itself: made from a sheet, and tapped."""

import os
import pathlib

from merelstof import Card, Provider
from merelstof.card import SHEET
from merelstof.library import library
from merelstof.practice import Practice

EXAMPLE = pathlib.Path(__file__).resolve().parent.parent / "examples" / "secp256k1.sheet"
START = [line.split("\t") for line in EXAMPLE.read_text().splitlines()] + [["pause", ""]]
NAMES = [name for name, _ in START]
LONGEST_VALUE = 64  # characters of a line's value: the hash of a code
LONGEST = 4060  # bytes of a request: with its draw and a refusal they make a recording's longest line


def sheet_of(values: list) -> str:
    """The lines, as a sheet has them. Without a pause there is no line of it."""
    return "".join(f"{name}\t{value}\n" for name, value in zip(NAMES, values) if name != "pause" or value)


def is_bad(at: int, value: str) -> bool:
    """Whether the library calls this line bad where all others are good. A value with a line feed would be two lines."""
    tried = [good for _, good in START]
    tried[at] = value
    return len(value) > LONGEST_VALUE or "\n" in value or library().personalise(sheet_of(tried).encode(errors="replace"))[0] != 0


def bad_lines(values: list) -> list:
    """Every bad line: the library itself names only the first."""
    return [{"line": at + 1, "wanted": SHEET[at]} for at, value in enumerate(values) if is_bad(at, value)]


class Remembering(Provider):
    """The practice keys, and what they answered: a recording has the answers."""

    def __init__(self):
        self.keys, self.answers = Practice(), b""

    def answer(self, questions: list) -> bytes:
        self.answers = self.keys.answer(questions)
        return self.answers


def tap(image: bytes, request: bytes) -> str:
    """A tap of the card with this image, as the line of a recording."""
    provider, draw = Remembering(), os.urandom(32)
    response = Card.from_image(image, provider).tap(request, draw)
    return "\t".join(part.hex().upper() for part in (request, draw, provider.answers, response.bytes))

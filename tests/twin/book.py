"""The handover book, from Ask 8 alone: its text read, two of them joined, and what `handover` and the library say of it."""

import re
from typing import NamedTuple

DONE, BAD_LINE, CLASH, FULL, NO_ROOM = 0, 1, 2, 3, 99
MOST = 256  # notes of a book
LONGEST_TEXT = 60
LONGEST_LINE = 78  # with its line feed
LONGEST_BOOK = MOST * LONGEST_LINE
PLACES = 256  # that a list for notes must have
TEXT_ROOM = 20_480  # bytes that a buffer for text must have
DECIMAL = re.compile(rb"0|[1-9][0-9]{0,9}")  # more digits are out of every range
RANGES = (range(256), range(1, 65_536), range(1_000_000))  # tablet, number, hours


class Note(NamedTuple):
    tablet: int
    number: int
    hours: int
    text: bytes

    @property
    def key(self) -> tuple:
        return self.tablet, self.number


class Outcome(NamedTuple):
    """As the C face has it: number, which book or tablet, at which line or number, how many notes or bytes."""

    number: int
    which: int = 0
    at: int = 0
    count: int = 0


def bad_line(book: int, line: int) -> Outcome:
    return Outcome(BAD_LINE, book, line)


# ---------------------------------------------------------------- a note, a book


def is_note(note: Note) -> bool:
    values = zip(note[:3], RANGES)
    return all(value in fits for value, fits in values) and 1 <= len(note.text) <= LONGEST_TEXT and not set(note.text) & {9, 10}


def note_of(line: bytes):
    """The note of a line, which comes without its line feed; None where it is none."""
    fields = line.split(b"\t")
    if len(fields) != 4 or not all(DECIMAL.fullmatch(field) for field in fields[:3]):
        return None
    note = Note(*map(int, fields[:3]), fields[3])
    return note if is_note(note) else None


def line_of(note: Note) -> bytes:
    return b"%d\t%d\t%d\t%s\n" % note


def text_of(book) -> bytes:
    return b"".join(map(line_of, book))


def first_bad(notes) -> int:
    """The place, counted from 1, of the first that may not stand where it does; 0 where these are a book. None is no note."""
    before = (-1, -1)
    for place, note in enumerate(notes, 1):
        if place > MOST or note is None or not is_note(note) or note.key <= before:
            return place
        before = note.key
    return 0


def notes_in(text: bytes) -> list:
    """A note for each line, or None; what stands behind the last line feed is a line as well, and no note."""
    *lines, rest = text.split(b"\n")
    return [note_of(line) for line in lines] + [None] * bool(rest)


# ---------------------------------------------------------------- what is done with books


def read(text: bytes, places: int = PLACES) -> tuple:
    """The outcome, and the notes where it is done."""
    if places < PLACES:
        return Outcome(NO_ROOM), []
    notes = notes_in(text)
    bad = first_bad(notes)
    return (bad_line(1, bad), []) if bad else (Outcome(DONE, count=len(notes)), notes)


def write(notes, room: int = TEXT_ROOM) -> tuple:
    """The outcome, and the text where it is done."""
    if room < TEXT_ROOM:
        return Outcome(NO_ROOM), b""
    bad = first_bad(notes)
    return (bad_line(1, bad), b"") if bad else (Outcome(DONE, count=len(text_of(notes))), text_of(notes))


def refusal(first, second) -> Outcome:
    """Of two books that are to be joined, of which either may be none."""
    for book, notes in enumerate((first, second), 1):
        if first_bad(notes):
            return bad_line(book, first_bad(notes))
    ours, theirs = ({note.key: note for note in book} for book in (first, second))
    clashes = [key for key in ours if key in theirs and ours[key] != theirs[key]]
    if clashes:
        return Outcome(CLASH, *min(clashes))
    return Outcome(FULL if len({**ours, **theirs}) > MOST else DONE)


def join(first, second, places: int = PLACES) -> tuple:
    """The outcome, and the notes of both where it is done."""
    if places < PLACES:
        return Outcome(NO_ROOM), []
    refused = refusal(first, second)
    if refused.number != DONE:
        return refused, []
    both = sorted({*first, *second})
    return Outcome(DONE, count=len(both)), both


def handed(first: bytes, second: bytes) -> bytes:
    """What the program `handover` prints for two texts."""
    outcome, both = join(notes_in(first), notes_in(second))
    words = {BAD_LINE: b"line\t%d\t%d\n", CLASH: b"clash\t%d\t%d\n"}
    if outcome.number in words:
        return words[outcome.number] % (outcome.which, outcome.at)
    return b"full\n" if outcome.number == FULL else text_of(both)

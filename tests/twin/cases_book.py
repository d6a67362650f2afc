"""Cases for the handover book, from Ask 8: lines, books, pairs of books, each by a name and with what must come of it.

What must come stands here by itself, so that the twin is held to it too; for pairs by chance it is only that both orders agree.
"""

import random
from typing import NamedTuple, Optional

from twin.book import CLASH, DONE, FULL, MOST, NO_ROOM, Note, Outcome, bad_line, text_of

SEED = 8
PAIRS_BY_CHANCE = 60


class Case(NamedTuple):
    name: str
    kind: str  # read, join or handed
    places: int  # of the lent list, for read and join
    texts: tuple
    wanted: Optional[Outcome]  # None where it is not known beforehand


def done(count: int) -> Outcome:
    return Outcome(DONE, count=count)


def clash(tablet: int, number: int) -> Outcome:
    return Outcome(CLASH, tablet, number)


def read(name: str, text: bytes, wanted: Outcome, places: int = MOST) -> Case:
    return Case(f"{name}: read, {places} places", "read", places, (text,), wanted)


def join(name: str, first: bytes, second: bytes, wanted: Optional[Outcome], places: int = MOST) -> Case:
    return Case(f"{name}: joined, {places} places", "join", places, (first, second), wanted)


def handed(name: str, first: bytes, second: bytes, wanted: Optional[Outcome]) -> Case:
    return Case(f"{name}: handed over", "handed", 0, (first, second), wanted)


def run(tablet: int, numbers, text: bytes = b"x", hours: int = 5) -> bytes:
    """A note for each number."""
    return text_of(Note(tablet, number, hours, text) for number in numbers)


# ---------------------------------------------------------------- one line

FRONT = b"0\t1\t12040\toil pressure 4.1 bar\n"  # every good line below rises above it
OTHER = b"0\t1\t12040\toil pressure 4.1 bar\n254\t9\t12055\tcoolant topped up\n"

GOOD_LINES = (
    ("tablet 0", b"0\t2\t5\tx"), ("tablet 255", b"255\t1\t5\tx"), ("tablet 10", b"10\t1\t5\tx"),
    ("number 1", b"1\t1\t5\tx"), ("number 65535", b"1\t65535\t5\tx"),
    ("hours 0", b"1\t1\t0\tx"), ("hours 999999", b"1\t1\t999999\tx"),
    ("a text of 1 byte", b"1\t1\t5\t."), ("a text of 60 bytes", b"1\t1\t5\t" + b"y" * 60),
    ("a text with CR", b"1\t1\t5\ta\rb"), ("a text that ends with CR", b"1\t1\t5\tab\r"), ("a text of CR", b"1\t1\t5\t\r"),
    ("a text with 00", b"1\t1\t5\ta\0b"), ("a text that ends with 00", b"1\t1\t5\ta\0"), ("a text of 60 times 00", b"1\t1\t5\t" + bytes(60)),
    ("a text of FF", b"1\t1\t5\t\xff"), ("a text that is no UTF-8", b"1\t1\t5\t\xc3(\x80"), ("a text of a blank", b"1\t1\t5\t "),
    ("a text of digits", b"1\t1\t5\t007"), ("a text with a refusal's word", b"1\t1\t5\tfull"),
    ("the longest line", b"255\t65535\t999999\t" + b"z" * 60),
)
BAD_LINES = (
    ("tablet 256", b"256\t1\t5\tx"), ("tablet 257, a 1 in one byte", b"257\t1\t5\tx"), ("tablet 007", b"007\t1\t5\tx"),
    ("tablet 01", b"01\t1\t5\tx"), ("tablet 00", b"00\t2\t5\tx"), ("tablet +1", b"+1\t1\t5\tx"), ("tablet -1", b"-1\t1\t5\tx"),
    ("tablet 2**32 + 1", b"4294967297\t1\t5\tx"), ("tablet of 30 digits", b"1" * 30 + b"\t1\t5\tx"), ("tablet in hex", b"1F\t1\t5\tx"),
    ("a blank before the tablet", b" 1\t1\t5\tx"), ("a blank after the tablet", b"1 \t1\t5\tx"), ("the tablet as a byte", b"\1\t1\t5\tx"),
    ("number 0", b"1\t0\t5\tx"), ("number 65536", b"1\t65536\t5\tx"), ("number 65537, a 1 in two bytes", b"1\t65537\t5\tx"),
    ("number 2**32 + 1", b"1\t4294967297\t5\tx"), ("number 0001", b"1\t0001\t5\tx"), ("number +1", b"1\t+1\t5\tx"), ("number -1", b"1\t-1\t5\tx"),
    ("number 1.0", b"1\t1.0\t5\tx"), ("a CR after the number", b"1\t1\r\t5\tx"),
    ("hours 1000000", b"1\t1\t1000000\tx"), ("hours 2**32", b"1\t1\t4294967296\tx"), ("hours 2**32 + 5", b"1\t1\t4294967301\tx"),
    ("hours 00", b"1\t1\t00\tx"), ("hours 05", b"1\t1\t05\tx"), ("hours +5", b"1\t1\t+5\tx"), ("hours -5", b"1\t1\t-5\tx"),
    ("hours with a point", b"1\t1\t1204.0\tx"), ("hours with a comma", b"1\t1\t12,040\tx"), ("a NUL after the hours", b"1\t1\t5\0\tx"),
    ("a text of 0 bytes", b"1\t1\t5\t"), ("a text of 61 bytes", b"1\t1\t5\t" + b"y" * 61), ("a text of 300 bytes", b"1\t1\t5\t" + b"y" * 300),
    ("no tablet field", b"1\t5\tx"), ("an empty tablet", b"\t1\t5\tx"), ("an empty number", b"1\t\t5\tx"), ("an empty field of hours", b"1\t1\t\tx"),
    ("no text field", b"1\t1\t5"), ("two fields", b"1\t1"), ("one field", b"1"), ("a field more", b"1\t1\t5\tx\ty"),
    ("an empty field more", b"1\t1\t5\tx\t"), ("an empty field before", b"\t1\t1\t5\tx"), ("a tab more between", b"1\t\t1\t5\tx"),
    ("two fields more", b"1\t1\t5\tx\ty\tz"), ("tabs alone", b"\t\t\t"), ("an empty line", b""), ("a line of CR", b"\r"), ("a line of NUL", b"\0"),
    ("blanks in place of tabs", b"1 1 5 x"), ("words in place of numbers", b"one\t1\t5\tx"), ("a refusal's line", b"line\t1\t5"),
    ("another tab in a long line", b"1\t1\t5\t" + b"y" * 30 + b"\t" + b"y" * 29),
)


def one_line():
    for name, line in GOOD_LINES:
        yield read(name, FRONT + line + b"\n", done(2))
        yield read(f"{name}, without its line feed", FRONT + line, bad_line(1, 2))
        yield handed(f"{name}, and no other book", line + b"\n", b"", done(1))
    for name, line in BAD_LINES:
        yield read(name, FRONT + line + b"\n", bad_line(1, 2))
        yield read(f"{name}, as line 1", line + b"\n" + OTHER, bad_line(1, 1))
        yield handed(f"{name}, in the first book", FRONT + line + b"\n", OTHER, bad_line(1, 2))
        yield handed(f"{name}, in the second book", OTHER, OTHER + line + b"\n", bad_line(2, 3))


# ---------------------------------------------------------------- lines in their order

ORDERS = (
    ("no line", b"", 0, 0),
    ("the same number on two tablets", b"1\t7\t5\tx\n2\t7\t5\tx\n", 0, 2),
    ("a higher tablet with a lower number", b"1\t900\t5\tx\n2\t1\t5\tx\n", 0, 2),
    ("number 9, then 10", b"1\t9\t5\tx\n1\t10\t5\tx\n", 0, 2),
    ("tablet 9, then 10", b"9\t1\t5\tx\n10\t1\t5\tx\n", 0, 2),
    ("hours that fall", b"1\t1\t900\tx\n1\t2\t5\tx\n", 0, 2),
    ("the lowest and the highest note", b"0\t1\t0\t\0\n255\t65535\t999999\t\xff\n", 0, 2),
    ("equal lines", b"1\t1\t5\tx\n1\t1\t5\tx\n", 2, 0),
    ("the same note with another text", b"1\t1\t5\tx\n1\t1\t5\ty\n", 2, 0),
    ("the number falls", b"1\t3\t5\tx\n1\t2\t5\tx\n", 2, 0),
    ("the tablet falls", b"2\t1\t5\tx\n1\t9\t5\tx\n", 2, 0),
    ("number 10, then 9", b"1\t10\t5\tx\n1\t9\t5\tx\n", 2, 0),
    ("tablet 10, then 9", b"10\t1\t5\tx\n9\t1\t5\tx\n", 2, 0),
    ("a fall after a rise", b"1\t1\t5\tx\n1\t4\t5\tx\n1\t3\t5\tx\n", 3, 0),
    ("above the line before the last, not above the last", b"1\t1\t5\tx\n1\t9\t5\tx\n1\t5\t5\tx\n1\t6\t5\tx\n", 3, 0),
    ("two bad lines", b"1\t1\t5\tx\n1\t2\t5\t\n1\t0\t5\tx\n", 2, 0),
    ("a bad field on a line that falls as well", b"1\t5\t5\tx\n1\t4\t1000000\tx\n", 2, 0),
    ("a good line after a bad one", b"1\t1\t5\tx\nbad\n1\t2\t5\tx\n", 2, 0),
    ("an empty line at the start", b"\n1\t1\t5\tx\n", 1, 0),
    ("an empty line between", b"1\t1\t5\tx\n\n1\t2\t5\tx\n", 2, 0),
    ("an empty line at the end", b"1\t1\t5\tx\n\n", 2, 0),
    ("a lone line feed", b"\n", 1, 0),
    ("a lone byte", b"1", 1, 0),
    ("a lone NUL at the end", b"1\t1\t5\tx\n\0", 2, 0),
    ("line ends of another kind", b"1\t1\t5\tx\r1\t2\t5\tx\r", 1, 0),
    ("a mark of UTF-8 before the first line", b"\xef\xbb\xbf1\t1\t5\tx\n", 1, 0),
)


def in_order():
    for name, text, bad, count in ORDERS:
        yield read(name, text, bad_line(1, bad) if bad else done(count))
        yield handed(f"{name}, with no other book", text, b"", bad_line(1, bad) if bad else done(count))
        yield handed(f"{name}, after no other book", b"", text, bad_line(2, bad) if bad else done(count))
    for places in (0, 1, 255, 256, 257, 300):
        for name, text, wanted in (("a good book", FRONT, done(1)), ("no note", b"", done(0)), ("a bad book", b"\n", bad_line(1, 1))):
            yield read(name, text, wanted if places >= MOST else Outcome(NO_ROOM), places)


def cut_short():
    """A good book cut at every byte: a book again after a line feed, and else its last line is bad."""
    book = b"0\t1\t12040\toil 4.1 bar\n3\t119\t12041\tcoolant\n3\t120\t12055\t\xff\r\0\n255\t65535\t0\tbelt\n"
    for length in range(len(book) + 1):
        text = book[:length]
        lines = text.count(b"\n")
        whole = text == b"" or text.endswith(b"\n")
        yield read(f"a book cut at byte {length}", text, done(lines) if whole else bad_line(1, lines + 1))
        yield handed(f"a book cut at byte {length}, as the second one", book, text, done(4) if whole else bad_line(2, lines + 1))


# ---------------------------------------------------------------- how many

MANY = {count: run(1, range(1, count + 1)) for count in (1, 255, 256, 257)}
LONGEST = {count: run(255, range(65_536 - count, 65_536), b"w" * 60, 999_999) for count in (256, 257)}
COUNTS = (
    ("1 note", MANY[1], done(1)),
    ("255 notes", MANY[255], done(255)),
    ("256 notes", MANY[256], done(256)),
    ("257 notes", MANY[257], bad_line(1, 257)),
    ("256 notes and a bad line", MANY[256] + b"bad\n", bad_line(1, 257)),
    ("256 notes and an empty line", MANY[256] + b"\n", bad_line(1, 257)),
    ("256 notes and a byte", MANY[256] + b"1", bad_line(1, 257)),
    ("256 notes and a line that falls", MANY[256] + FRONT, bad_line(1, 257)),
    ("256 notes, the last without its line feed", MANY[256][:-1], bad_line(1, 256)),
    ("257 notes, line 3 bad", MANY[257].replace(b"\n1\t3\t", b"\n1\t03\t"), bad_line(1, 3)),
    ("257 notes, line 256 bad", MANY[257].replace(b"\n1\t256\t", b"\n1\t255\t"), bad_line(1, 256)),
    ("256 of the longest lines", LONGEST[256], done(256)),
    ("257 of the longest lines", LONGEST[257], bad_line(1, 257)),
)


def how_many():
    for name, text, wanted in COUNTS:
        yield read(name, text, wanted)
    for name, text, wanted in COUNTS[:9]:
        yield handed(f"{name}, as the second one", FRONT, text, Outcome(FULL) if wanted == done(256) else
                     done(wanted.count + 1) if wanted.number == DONE else bad_line(2, wanted.at))
    yield handed("256 of the longest lines, with themselves", LONGEST[256], LONGEST[256], done(256))


# ---------------------------------------------------------------- two books

ODD, EVEN = run(1, range(1, 257, 2)), run(1, range(2, 257, 2))
UNIONS = (
    ("no notes and no notes", b"", b"", 0),
    ("one note and no notes", FRONT, b"", 1),
    ("a book with itself", OTHER, OTHER, 2),
    ("a part of the other", OTHER, FRONT, 2),
    ("each has one of its own", FRONT + b"3\t1\t5\tx\n", FRONT + b"2\t1\t5\tx\n", 3),
    ("one wholly below the other", run(1, range(1, 9)), run(2, range(1, 9)), 16),
    ("two tablets, a number of each alike", run(1, (1, 2, 3)), run(2, (1, 2, 3)), 6),
    ("256 without overlap, one below the other", run(1, range(1, 129)), run(2, range(1, 129)), 256),
    ("256 without overlap, in turns", ODD, EVEN, 256),
    ("256 with overlap", run(1, range(1, 201)), run(1, range(57, 257)), 256),
    ("256 and no notes", MANY[256], b"", 256),
    ("256 and the same 256", MANY[256], MANY[256], 256),
    ("256 and one of them", MANY[256], run(1, (256,)), 256),
    ("255 and one more", MANY[255], run(1, (256,)), 256),
    ("257 without overlap, one below the other", run(1, range(1, 130)), run(2, range(1, 129)), 257),
    ("257 without overlap, in turns", ODD + run(1, (257,)), EVEN, 257),
    ("257 with overlap", run(1, range(1, 202)), run(1, range(57, 258)), 257),
    ("256 and one more, above", MANY[256], run(1, (257,)), 257),
    ("256 and one more, below", MANY[256], FRONT, 257),
    ("256 and 256 others", MANY[256], run(2, range(1, 257)), 512),
)
BASE = b"2\t5\t12040\toil pressure 4.1 bar\n"
CLASHES = (
    ("hours alone", BASE, b"2\t5\t12041\toil pressure 4.1 bar\n", (2, 5)),
    ("text alone", BASE, b"2\t5\t12040\toil pressure 0.8 bar\n", (2, 5)),
    ("the first byte of the text", BASE, b"2\t5\t12040\tOil pressure 4.1 bar\n", (2, 5)),
    ("the last byte of the text", BASE, b"2\t5\t12040\toil pressure 4.1 bas\n", (2, 5)),
    ("the length", BASE, b"2\t5\t12040\toil pressure 4.1 bar.\n", (2, 5)),
    ("the length, by a byte 00", BASE, b"2\t5\t12040\toil pressure 4.1 bar\0\n", (2, 5)),
    ("the last of 60 bytes", run(1, (1,), b"w" * 60), run(1, (1,), b"w" * 59 + b"v"), (1, 1)),
    ("59 bytes and 60", run(1, (1,), b"w" * 60), run(1, (1,), b"w" * 59), (1, 1)),
    ("the lowest note there is", b"0\t1\t0\tx\n", b"0\t1\t0\ty\n", (0, 1)),
    ("the highest note there is", b"255\t65535\t999999\tx\n", b"255\t65535\t999998\tx\n", (255, 65_535)),
    ("tablet 3, note 120", FRONT + b"3\t119\t1\ta\n3\t120\t2\tb\n", b"3\t119\t1\ta\n3\t120\t2\tc\n200\t1\t3\td\n", (3, 120)),
    ("two, the lower one first in the second book", run(1, (1, 2, 3, 4)) + BASE + run(3, (7,)), run(2, (5,)) + run(3, (7,), b"y"), (2, 5)),
    ("two, the lower tablet has the higher number", run(2, (900,)) + run(3, (1,)), run(2, (900,), b"y") + run(3, (1,), b"y"), (2, 900)),
    ("two, of one tablet", run(1, (9, 10)), run(1, (9, 10), b"y"), (1, 9)),
    ("after notes that are alike", run(1, range(1, 31)) + BASE, run(1, range(1, 31)) + run(2, (5,)), (2, 5)),
    ("the last of 256", MANY[256], run(1, range(1, 256)) + run(1, (256,), b"y"), (1, 256)),
    ("a union that is too large", MANY[256], run(1, (256,), b"y") + run(2, range(1, 129)), (1, 256)),
    ("a union that is too large, the clash above the 256th",
     run(1, range(1, 201)) + run(3, (1,)), run(2, range(1, 201)) + run(3, (1,), b"y"), (3, 1)),
)
NEITHER = (
    ("a clash, and a bad line after it in the first book", BASE + b"bad\n", run(2, (5,)), bad_line(1, 2), bad_line(2, 2)),
    ("a clash, and a line without its line feed", BASE, run(2, (5,)) + b"3\t1\t5\tx", bad_line(2, 2), bad_line(1, 2)),
    ("a bad line in both books", run(1, (1, 2, 3)) + b"\n", b"bad\n", bad_line(1, 4), bad_line(1, 1)),
    ("257 notes in both books", MANY[257], MANY[257], bad_line(1, 257), bad_line(1, 257)),
    ("257 notes, and a bad line", MANY[257], FRONT + b"bad\n", bad_line(1, 257), bad_line(1, 2)),
    ("a union that is too large, and a bad line", MANY[256], FRONT + b"bad\n", bad_line(2, 2), bad_line(1, 2)),
    ("a clash in a union that is too large, and a bad line", MANY[256], run(1, (256,), b"y") + run(2, (3, 2)), bad_line(2, 3), bad_line(1, 3)),
)


def both_orders(name: str, first: bytes, second: bytes, wanted: Outcome):
    for order, pair in (("", (first, second)), (", the other way round", (second, first))):
        yield handed(name + order, *pair, wanted)
        yield join(name + order, *pair, wanted)


def two_books():
    for name, first, second, count in UNIONS:
        yield from both_orders(name, first, second, done(count) if count <= MOST else Outcome(FULL))
    for name, first, second, pair in CLASHES:
        yield from both_orders(f"a clash: {name}", first, second, clash(*pair))
    for name, first, second, wanted, turned in NEITHER:
        yield handed(name, first, second, wanted)
        yield handed(f"{name}, the other way round", second, first, turned)
    for places in (0, 255, 257, 300):
        for name, second, wanted in (("a good pair", OTHER, done(3)), ("a clash", run(2, (5,)), clash(2, 5))):
            yield join(name, BASE, second, wanted if places >= MOST else Outcome(NO_ROOM), places)
    yield join("a union that is too large", MANY[256], FRONT, Outcome(NO_ROOM), 255)


# ---------------------------------------------------------------- by chance


def chance_note(chance: random.Random) -> Note:
    text = bytes(chance.choice(b"abc \r\0\xff0") for _ in range(chance.choice((1, 2, 3, 8, 60))))
    return Note(chance.randrange(3), chance.randrange(1, 12), chance.choice((0, 5, 999_999)), text)


def chance_book(chance: random.Random, pool: dict) -> bytes:
    """Some notes of the pool; now and then one of them is another, or a byte of the text is."""
    kept = {key: note for key, note in pool.items() if chance.random() < 0.6}
    if kept and chance.random() < 0.3:
        changed = chance_note(chance)
        kept[changed.key] = changed
    text = bytearray(text_of(kept[key] for key in sorted(kept)))
    if text and chance.random() < 0.2:
        text[chance.randrange(len(text))] = chance.choice(b"\t\n0-9x")
    return bytes(text)


def by_chance():
    chance = random.Random(SEED)
    for number in range(1, PAIRS_BY_CHANCE + 1):
        notes = [chance_note(chance) for _ in range(chance.randrange(1, 16))]
        pool = {note.key: note for note in notes}
        first, second = chance_book(chance, pool), chance_book(chance, pool)
        yield handed(f"pair {number} by chance", first, second, None)
        yield handed(f"pair {number} by chance, the other way round", second, first, None)


GROUPS = (one_line, in_order, cut_short, how_many, two_books, by_chance)


def all_cases() -> list:
    return [case for group in GROUPS for case in group()]

#!/usr/bin/env python3
"""Makes crates/books/stdin, cases for the program `books`, and crates/books/stdout, what it must print.

Run: python3 tests/books.py; with --check it says whether the two files are what it would write. The cases stand in
tests/twin/cases_book.py, and tests/README.md tells what the lines mean. What is expected comes from Ask 8 by way of the twin's book; each
case also says beforehand what must come of it, and the script stops where the twin says otherwise.
"""

import pathlib
import sys
from collections import Counter

from twin import book
from twin.cases_book import Case, all_cases

PLACE = pathlib.Path(__file__).resolve().parent.parent / "crates" / "books"
ROOM = 81_952  # bytes of a line that the program holds
KINDS = {book.DONE: "done", book.BAD_LINE: "bad line", book.CLASH: "clash", book.FULL: "full", book.NO_ROOM: "no room"}


def hexed(some: bytes) -> str:
    return some.hex().upper()


def came_to(case: Case) -> tuple:
    """The outcome, and the notes where it is done."""
    if case.kind == "read":
        return book.read(*case.texts, case.places)
    places = case.places if case.kind == "join" else book.PLACES
    return book.join(*map(book.notes_in, case.texts), places)


def line_of(case: Case) -> str:
    places = [] if case.kind == "handed" else [str(case.places)]
    return "\t".join([case.kind, *places, *map(hexed, case.texts)]) + "\n"


def answer_to(case: Case) -> str:
    if case.kind == "handed":
        return hexed(book.handed(*case.texts)) + "\n"
    outcome, notes = came_to(case)
    text = [hexed(book.text_of(notes))] if outcome.number == book.DONE else []
    return "\t".join([*map(str, outcome), *text]) + "\n"


# ---------------------------------------------------------------- what must hold of the cases


def turned(outcome: book.Outcome) -> book.Outcome:
    """What the other order has to come to, where one book at most has a bad line."""
    return outcome._replace(which=3 - outcome.which) if outcome.number == book.BAD_LINE else outcome


def held(case: Case) -> None:
    """The twin comes to what the case says; where it says nothing, to the same in the other order."""
    outcome, notes = came_to(case)
    wanted = case.wanted
    if wanted is None:
        both_bad = all(book.first_bad(book.notes_in(text)) for text in case.texts)
        other = came_to(case._replace(texts=case.texts[::-1]))
        assert both_bad or other == (turned(outcome), notes), case
    else:
        assert outcome == wanted, (case.name, outcome, wanted)
    if case.kind == "join":
        assert not any(book.first_bad(book.notes_in(text)) for text in case.texts), case.name
    if outcome.number == book.DONE:
        assert book.notes_in(book.text_of(notes)) == notes and not book.first_bad(notes), case.name


def summary(cases: list) -> str:
    counts = Counter((case.kind, KINDS[came_to(case)[0].number]) for case in cases)
    return f"{len(cases)} cases: " + ", ".join(f"{times} {kind} {end}" for (kind, end), times in sorted(counts.items()))


def main():
    cases = all_cases()
    assert len({case.name for case in cases}) == len(cases), "two cases of one name"
    for case in cases:
        held(case)
    made = {"stdin": "".join(map(line_of, cases)), "stdout": "".join(map(answer_to, cases))}
    assert max(map(len, made["stdin"].splitlines())) <= ROOM, f"the program holds {ROOM} bytes of a line"
    for name, text in made.items():
        if "--check" not in sys.argv:
            PLACE.mkdir(exist_ok=True)
            (PLACE / name).write_text(text)
        elif (PLACE / name).read_text() != text:
            sys.exit(f"crates/books/{name} is not what this script writes")
    print(summary(cases))
    print(f"stdin {len(made['stdin'])} bytes, stdout {len(made['stdout'])} bytes")


if __name__ == "__main__":
    main()

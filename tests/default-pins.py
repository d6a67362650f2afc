#!/usr/bin/env python3
"""The default PIN1 and PIN2, the SHA-256 of the characters 000000 and 000, worked out by Python's library, and held to every constant.

Run: tests/default-pins.py [--write] [FOLDER]. It prints the 64 hex digits of each, then a line for each constant in FOLDER (the project),
`ok FILE: NAME` or `FAIL FILE: why`: those of the card's code and of what it promises, and those of the host's C, if there are any. A constant
is the name, in any spelling, with a row of bytes 0x.. after it. The last line is of what the program `defaults` must print, which --write
makes first. Ends with 1 where one differs, or where the code or the promises lack one.
"""

import hashlib
import pathlib
import re
import sys

PROJECT = pathlib.Path(__file__).resolve().parent.parent
RIGHT = {f"PIN{which}": hashlib.sha256(text).hexdigest().upper() for which, text in ((1, b"000000"), (2, b"000"))}
BYTES = re.compile(r"(?:0x[0-9A-F]{2}(?:_?u8)?\b[^\w=]*){8,}", re.I)
REACH = 80  # characters from the name to its bytes: a type may stand between them
WANTED = ("crates/*/src/**/*.rt", "crates/*/specs/**/*.antt")
ELSEWHERE = ("host/**/*.[ch]",)
PRINTED = "crates/defaults/stdout"


def constants(code: str, text: str) -> list:
    """The digits of every row of bytes that follows the name of this code, with the other's name not between them."""
    rows = {}
    for name in re.finditer(rf"default_?pin_?{code[-1]}", text, re.I):
        row = BYTES.search(text, name.end())
        between = text[name.end() : row.start()] if row else ""
        if row and len(between) <= REACH and not re.search(rf"default_?pin_?[^\W{code[-1]}]", between, re.I):
            rows[row.start()] = row[0]
    return ["".join(re.findall(r"0x([0-9a-f]{2})", row, re.I)).upper() for row in rows.values()]


def held(folder: pathlib.Path, pattern: str, code: str) -> list:
    """For each constant of this code in the files of this pattern, whether it is right."""
    rights = []
    for path in sorted(folder.glob(pattern)):
        for digits in constants(code, path.read_text()):
            rights.append(digits == RIGHT[code])
            name = path.relative_to(folder)
            print(f"ok {name}: {code}" if rights[-1] else f"FAIL {name}: {code} is {digits}")
    return rights


def printed(path: pathlib.Path) -> bool:
    """Whether what the program must print is the codes, a line each."""
    right = path.exists() and path.read_text() == "".join(digits + "\n" for digits in RIGHT.values())
    print(f"ok {PRINTED}" if right else f"FAIL {PRINTED}: not the two codes")
    return right


def main() -> int:
    words = [word for word in sys.argv[1:] if word != "--write"]
    folder = pathlib.Path(words[0]) if words else PROJECT
    text = "".join(digits + "\n" for digits in RIGHT.values())
    print(text, end="")
    if "--write" in sys.argv:
        (folder / PRINTED).write_text(text, newline="\n")
    wrong = 0
    for code in RIGHT:
        for pattern in WANTED:
            rights = held(folder, pattern, code)
            wrong += not all(rights)
            if not rights:
                print(f"FAIL {pattern}: no default {code} there")
                wrong += 1
        for pattern in ELSEWHERE:
            wrong += not all(held(folder, pattern, code))
    wrong += not printed(folder / PRINTED)
    return 1 if wrong else 0


if __name__ == "__main__":
    sys.exit(main())

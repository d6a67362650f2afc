#!/usr/bin/env python3
"""Makes crates/firstreads/stdin, inputs for the program `firstreads`, and crates/firstreads/stdout, what it must print.

Run: python3 tests/firstreads.py; with --check it says whether the two files are what it would write. tests/README.md tells what the
lines mean. What is expected comes from document 01, "The personalisation sheet", by way of the twin's reader of sheets and its settle;
each case also says beforehand which line is bad, and the script stops where the twin says otherwise.
"""

import pathlib
import sys

from twin.card import personalise, settle

PLACE = pathlib.Path(__file__).resolve().parent.parent / "crates" / "firstreads"
# 01's own example, to the byte: cid AA00000000016675, curve secp256k1, active 1.
EXAMPLE = "0108AA000000000166750201010509736563703235366B316304000000009000"
# The same with active 0: Is_Activated and the seed for curve and hashes.
ASLEEP = "0108AA000000000166750201013A01003B1000112233445566778899AABBCCDDEEFF9000"
READ_CARD = bytes.fromhex("00F20000221020")  # CLA, INS, P1, P2, Lc, then tag and length of PIN1
INPUT = 4096  # what firstread reads at most
GOOD = (
    b"cid\tAA00000000016675", b"pin1\t" + b"91B4D142823F7D20" * 4, b"pin2\t" + b"2AC9A6746ACA543A" * 4, b"cvc\t123", b"curve\tsecp256k1",
    b"max\t1000000", b"reusable\t1", b"usecvc\t0", b"setpin1\t1", b"setpin2\t1", b"nopurge\t0", b"replay\t0", b"active\t1", b"seed\t00112233445566778899AABBCCDDEEFF",
)
AFTER = len(GOOD) + 1
# Values of each line that are not good ones.
WRONG = {
    b"cid": (b"AA0000000001667", b"AA000000000166750", b"aa00000000016675", b"AA0000000001667G"),
    b"pin1": (b"0" * 63, b"0" * 65, b"0" * 63 + b"a"),
    b"pin2": (b"F" * 62, b"F" * 66, b"f" * 64),
    b"cvc": (b"12", b"1234", b"12A"),
    b"curve": (b"secp256r1", b"Ed25519", b"secp256k1 "),
    b"max": (b"0", b"007", b"4294967296", b"10000000000", b"-1"),
    b"seed": (b"0" * 31, b"0" * 33, b"00112233445566778899aabbccddeeff"),
}
NO_FLAG = (b"2", b"01", b"yes")
# What is no line 15, and what may not come after one.
NO_PAUSE = (
    b"pause\t61\n", b"pause\t99\n", b"pause\t100\n", b"pause\t316\n", b"pause\t05\n", b"pause\t00\n", b"pause\t\n", b"pause\t5\t\n",
    b"pause\t5\r\n", b"pause\t 5\n", b"pause\t-5\n", b"pause\t5A\n", b"pause\n", b"pause5\n", b"pause 5\n", b"Pause\t5\n", b"paus\t5\n",
    b"pauses\t5\n", b" pause\t5\n", b"seed\t5\n", b"uid\t00000000\n", b"pause\t5", b"pause\t", b"pause", b"\npause\t5\n",
)
AFTER_PAUSE = (b"pause\t5\n", b"pause\t61\n", b"pause", b"\n", b" ", b"\0", b"x", b"active\t1\n")


def sheet(**changed) -> bytes:
    values = dict(line.split(b"\t") for line in GOOD) | {name.encode(): value for name, value in changed.items()}
    return b"".join(name + b"\t" + value + b"\n" for name, value in values.items())


def pause(seconds: int) -> bytes:
    return b"pause\t%d\n" % seconds


def joined(lines) -> bytes:
    return b"".join(line + b"\n" for line in lines)


def good_sheets():
    for curve in (b"secp256k1", b"ed25519"):
        for active in (b"1", b"0"):
            yield 0, sheet(curve=curve, active=active)
            yield 0, sheet(curve=curve, active=active, cid=b"0123456789ABCDEF", pin1=b"0" * 64, pin2=b"F" * 64, cvc=b"000", max=b"4294967295",
                           reusable=b"0", usecvc=b"1", setpin1=b"0", setpin2=b"0", nopurge=b"1", replay=b"1")
    # PIN2 is the other's PIN1, and both are the same
    yield 0, sheet(pin1=b"F" * 64, pin2=b"0" * 64)
    yield 0, sheet(pin2=b"91B4D142823F7D20" * 4)
    for active in (b"0", b"1"):
        yield 0, sheet(active=active, seed=b"0" * 32)
    yield 0, sheet(active=b"0", seed=b"F" * 32)
    for seconds in (0, 1, 9, 10, 59, 60):
        yield 0, sheet() + pause(seconds)
    yield 0, sheet(active=b"0", curve=b"ed25519") + pause(60)


def bad_lines():
    """Of flags, which are alike, each has half of what can be wrong with a line; two lines follow such a line, to keep the file short."""
    for at, line in enumerate(GOOD, 1):
        name, value = line.split(b"\t")
        before, after = GOOD[: at - 1], GOOD[at:]
        others = name.upper() + b"\t" + value, name + value, name + b" " + value, name + b"\t", line + b"\t", line + b"\r", b" " + line, b""
        for wrong in WRONG.get(name, NO_FLAG):
            yield at, joined((*before, name + b"\t" + wrong, *after[:2]))
        for other in others if name in WRONG else others[at % 2 :: 2]:
            yield at, joined((*before, other, *after[:2]))
        yield at, joined((*before, *after))  # it is missing
        yield at + 1, joined((*before, line, line, *after))  # it stands twice
        yield at, joined(before)  # the sheet ends before it
        yield at, joined(before) + line  # and without its line feed
        yield at, joined(before) + line[:2]
        # it is bad, and so is every line after it
        yield at, joined((*before, *[b"?"] * (AFTER - at)))


def other_bytes():
    yield 1, b""
    yield 1, b"\n"
    yield 1, b"\0"
    yield 1, b"\n" + sheet()
    yield 1, b"\xef\xbb\xbf" + sheet()
    yield 1, sheet().replace(b"\n", b"\r\n")
    for after in (b"\n", b" ", b"\0", b"x", b"active\t1\n", sheet()):
        yield AFTER, sheet() + after


def pauses():
    for after in NO_PAUSE:
        yield AFTER, sheet() + after
    yield AFTER, sheet() + b"pause\t61\n" + pause(5)
    for after in AFTER_PAUSE:
        yield AFTER + 1, sheet() + pause(len(after)) + after
    # before the seed, in its place, before everything, after a bad line
    yield len(GOOD), joined(GOOD[:-1]) + pause(5) + joined(GOOD[-1:])
    yield len(GOOD), joined(GOOD[:-1]) + pause(5)
    yield 1, pause(5) + sheet()
    yield len(GOOD), sheet(seed=b"0" * 31) + pause(5)


def long_inputs():
    """As long as what is read, a byte less, a byte more, and much more; a line that runs out of what is read."""
    for length in (INPUT - 1, INPUT, INPUT + 1, 2 * INPUT):
        yield AFTER, sheet().ljust(length, b"\n")
    yield 1, b"c" * (INPUT + 1)
    for length in (INPUT, INPUT + 1):
        yield 6, joined(GOOD[:5]) + b"max\t".ljust(length, b"9")
        yield len(GOOD), joined(GOOD[:-1]) + GOOD[-1].ljust(length, b"1") + b"\n"
    yield 5, sheet(curve=b"P-256").ljust(INPUT + 1, b"x")
    yield AFTER, sheet() * 14
    yield AFTER, sheet() + b"pause\t6".ljust(INPUT, b"0") + b"\n"
    yield AFTER + 1, (sheet() + pause(60)).ljust(INPUT + 1, b"\n")


def printed(data: bytes) -> str:
    """What 01 says of an input, whatever its length."""
    bad, image = personalise(data)
    if bad:
        return f"line\t{bad}\n"
    pin1 = bytes.fromhex(data.split(b"\n")[1].split(b"\t")[1].decode())
    return settle(image, READ_CARD + pin1, bytes(32), b"").response.hex().upper() + "\n"


def expected(bad: int, data: bytes) -> str:
    line = printed(data)
    if bad:
        assert line == f"line\t{bad}\n", (bad, line, data)
    else:
        assert line.startswith("0108") and line.endswith("9000\n"), (line, data)
    return line


def main():
    assert printed(sheet()) == EXAMPLE + "\n"
    assert printed(sheet(active=b"0")) == ASLEEP + "\n"
    assert printed(sheet() + pause(60)) == EXAMPLE + "\n", "READ_CARD never waits on a fresh card"
    cases = [case for group in (good_sheets, bad_lines, other_bytes, pauses, long_inputs) for case in group()]
    made = {"stdin": "".join(data.hex().upper() + "\n" for _, data in cases), "stdout": "".join(expected(*case) for case in cases)}
    assert len(made["stdin"]) <= 1 << 18, "the program reads 262,144 bytes"
    for name, text in made.items():
        if "--check" not in sys.argv:
            (PLACE / name).write_text(text)
        elif (PLACE / name).read_text() != text:
            sys.exit(f"crates/firstreads/{name} is not what this script writes")
    print(f"{len(cases)} cases")


main()

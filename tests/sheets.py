#!/usr/bin/env python3
"""Cases for the reader of the personalisation sheet, made from document 01 alone: `tests/sheets.py` writes crates/sheets/stdin
and crates/sheets/stdout; `tests/sheets.py --check` says whether they are what it would write.

A case is a line of stdin: the size of the image buffer, a tab, the sheet in capital hex. A line of stdout is the answer, a tab, how
many bytes of the buffer changed beyond the image (0), and for answer 0 a tab and the image in capital hex. The buffer holds A5
everywhere before."""
import os, re, sys

ROOM = 4096
SIZE = 3474
NAMES = "cid pin1 pin2 cvc curve max reusable usecvc setpin1 setpin2 nopurge replay active seed".split()
FLAGS = NAMES[6:13]
PAUSE = {b"pause\t%d\n" % seconds: seconds for seconds in range(61)}  # every line 15 that there is
CURVES = {b"secp256k1": 1, b"ed25519": 2}


# The sheet, from document 01, "The personalisation sheet".
def good_value(name, value):
    if name == "cid":
        return re.fullmatch(rb"[0-9A-F]{16}", value)
    if name in ("pin1", "pin2"):
        return re.fullmatch(rb"[0-9A-F]{64}", value)
    if name == "seed":
        return re.fullmatch(rb"[0-9A-F]{32}", value)
    if name == "cvc":
        return re.fullmatch(rb"[0-9]{3}", value)
    if name == "curve":
        return value in CURVES
    if name == "max":
        return re.fullmatch(rb"[1-9][0-9]*", value) and int(value) <= 4294967295
    return value in (b"0", b"1")


def read(data):
    """The number of the first bad line, and the values of the lines before it."""
    values = {}
    for number, name in enumerate(NAMES, 1):
        line, feed, data = data.partition(b"\n")
        head, tab, value = line.partition(b"\t")
        if not feed or not tab or head != name.encode() or not good_value(name, value):
            return number, values
        values[name] = value
    after = len(NAMES) + 1
    line, feed, rest = data.partition(b"\n")
    if line + feed in PAUSE:  # the one line that may be there or not
        values["pause"], data, after = PAUSE[line + feed], rest, after + 1
    return (after if data else 0), values


def image(values):
    """The fresh card of a good sheet, in the layout of docs/IMAGE.md."""
    out = bytearray(SIZE)
    out[0:32] = bytes.fromhex(values["pin1"].decode())
    out[32:64] = bytes.fromhex(values["pin2"].decode())
    out[64:72] = bytes.fromhex(values["cid"].decode())
    out[72:75] = values["cvc"]
    out[75] = CURVES[values["curve"]]
    out[76:80] = int(values["max"]).to_bytes(4, "big")
    out[80:96] = bytes.fromhex(values["seed"].decode())
    out[96] = values.get("pause", 0)
    for place, flag in enumerate(FLAGS, 97):
        out[place] = int(values[flag])
    out[104] = 1  # Empty; number, Remaining, hashes, key, counters, data, the wait and the signatures are 0
    return bytes(out)


def answer(room, data):
    if room < ROOM:
        return "99\t0"
    number, values = read(data)
    if number:
        return "%d\t0" % number
    return "0\t0\t" + image(values).hex().upper()


# The cases.
PLAIN = {
    "cid": b"AA00000000016675",
    "pin1": b"91B4D142823F7D20C5F08DF69122DE43F35F057A988D9619F6D3138485C9A203",
    "pin2": b"2AC9A6746ACA543AF8DFF39894CFE8173AFBA21EB01C6FAE33D52947222855EF",
    "cvc": b"123",
    "curve": b"secp256k1",
    "max": b"1000000",
    "reusable": b"1",
    "usecvc": b"0",
    "setpin1": b"1",
    "setpin2": b"1",
    "nopurge": b"0",
    "replay": b"0",
    "active": b"1",
    "seed": b"00112233445566778899AABBCCDDEEFF",
}
OTHER = {
    "cid": b"0123456789ABCDEF",
    "pin1": b"0" * 64,
    "pin2": b"F" * 64,
    "cvc": b"000",
    "curve": b"ed25519",
    "max": b"4294967295",
    "reusable": b"0",
    "usecvc": b"1",
    "setpin1": b"0",
    "setpin2": b"0",
    "nopurge": b"1",
    "replay": b"1",
    "active": b"0",
    "seed": b"0" * 32,
}


def lines(values, **other):
    return [name.encode() + b"\t" + other.get(name, values[name]) + b"\n" for name in NAMES]


def sheet(values=PLAIN, **other):
    return b"".join(lines(values, **other))


def replaced(number, line):
    """The plain sheet with another line of that number. A line that is there is followed by two more, to keep the file short."""
    before, after = lines(PLAIN)[: number - 1], lines(PLAIN)[number:]
    return b"".join(before + [line] + (after[:2] if len(line) > 1 else after))


WRONG = {
    "cid": [b"AA0000000001667", b"AA000000000166750", b"aA00000000016675", b"AA0000000001667g", b"AA0000000001667G", b"AA0000000001667:", b"AA0000000001667@", b"AA000000000166 5", b"0xAA000000001667"],
    "pin1": [PLAIN["pin1"][:-1], PLAIN["pin1"] + b"0", PLAIN["pin1"][:-2], PLAIN["pin1"].lower(), b"/" + PLAIN["pin1"][1:]],
    "pin2": [PLAIN["pin2"][:-1], PLAIN["pin2"] + b"0", PLAIN["pin2"] + b"00", PLAIN["pin2"][:-1] + b"f", PLAIN["pin2"][:-1] + b"`"],
    "cvc": [b"12", b"1234", b"12A", b"/23", b":23", b"12\x00", b"\xb2\xb3\xb9"],
    "curve": [b"SECP256K1", b"secp256k", b"secp256k1 ", b"secp256k11", b"Ed25519", b"ed2551", b"ed255190", b"nistp256", b"1"],
    "max": [b"0", b"00", b"01", b"0001000000", b"4294967296", b"4294967300", b"42949672950", b"18446744073709551617", b"99999999999999999999999999", b"+1", b"-1", b"1e3", b"0x10", b"1.0", b"1,000", b"ten"],
}
WRONG["seed"] = [PLAIN["seed"][:-1], PLAIN["seed"] + b"0", PLAIN["seed"][:-2], PLAIN["seed"] + b"00", PLAIN["seed"].lower(), PLAIN["seed"][:-1] + b"f", b"G" + PLAIN["seed"][1:], PLAIN["seed"] * 2]
for flag in FLAGS:
    WRONG[flag] = [b"2", b"00", b"01", b"/", b"true"]


# What is no line 15, though much of it comes near one.
NO_PAUSE = [b"pause\t" + value + b"\n" for value in (
    b"61", b"62", b"69", b"70", b"99", b"100", b"255", b"256", b"316", b"600", b"65536", b"4294967296", b"4294967356",
    b"18446744073709551617", b"00", b"01", b"05", b"000", b"060", b"", b" ", b" 5", b"5 ", b"\t5", b"5\t", b"5\r", b"\r", b"5\0",
    b"+5", b"-5", b"-0", b"5s", b"s", b"A", b"0x5", b"5.0", b"6,0", b"/", b":", b"1:", b"\xb5", b"five",
)] + [
    b"Pause\t5\n", b"PAUSE\t5\n", b"paus\t5\n", b"pauses\t5\n", b"pause \t5\n", b" pause\t5\n", b"\tpause\t5\n", b"ause\t5\n",
    b"\t5\n", b"delay\t5\n", b"seed\t5\n", b"uid\t00000000\n", b"active\t1\n",  # other names
    b"pause\n", b"pause5\n", b"pause 5\n", b"pause=5\n", b"pause:5\n",  # no tab
    b"pause\t5", b"pause\t60", b"pause\t", b"pause", b"p", b"pause\t5\r", b"pause\t5\0",  # no line feed
    b"\n", b"\r", b"\0", b" ", b"x", b"\n\n", b"\xef\xbb\xbfpause\t5\n",
]
AFTER_PAUSE = (b"\n", b"\r", b"\0", b" ", b"x", b"\n\n", b"pause", b"pause\t5", b"pause\t5\n", b"pause\t61\n", b"uid\t00000000\n",
               b"seed\t" + b"0" * 32 + b"\n")


def cases():
    # good ones, on both curves
    yield ROOM, sheet()
    yield ROOM, sheet(OTHER)
    yield 2 * ROOM, sheet(OTHER, curve=b"secp256k1")
    yield ROOM + 1, sheet(PLAIN, curve=b"ed25519", cvc=b"999", max=b"1")
    for number in ("9", "10", "65535", "65536", "4294967294"):
        yield ROOM, sheet(PLAIN, max=number.encode())
    for flag in FLAGS:
        yield ROOM, sheet(PLAIN, **{flag: b"0" if PLAIN[flag] == b"1" else b"1"})
    for seed in (b"0" * 32, b"F" * 32, b"0" * 31 + b"1", b"8" + b"0" * 31):
        yield ROOM, sheet(PLAIN, seed=seed)
    for seconds in (0, 1, 2, 9, 10, 11, 19, 20, 58, 59, 60):
        yield ROOM, sheet() + b"pause\t%d\n" % seconds
    yield ROOM, sheet(OTHER) + b"pause\t60\n"
    # an image buffer that is too short, also with a bad sheet
    for room in (ROOM - 1, SIZE, SIZE - 1, 1, 0):
        yield room, sheet()
    yield ROOM - 1, b""
    yield ROOM - 1, sheet(PLAIN, cid=b"00")
    yield ROOM - 1, sheet() + b"pause\t60\n"
    yield ROOM - 1, sheet() + b"pause\t61\n"
    # each line damaged
    for number, name in enumerate(NAMES, 1):
        value, key = PLAIN[name], name.encode()
        for wrong in WRONG[name]:  # with one line after it, to keep the file short
            yield ROOM, b"".join(lines(PLAIN, **{name: wrong})[: number + 1])
        damaged = (
            key.upper() + b"\t" + value + b"\n",  # another name
            key[:-1] + b"\t" + value + b"\n",
            key + b"x\t" + value + b"\n",
            b" " + key + b"\t" + value + b"\n",
            b"\t" + value + b"\n",
            NAMES[number % len(NAMES)].encode() + b"\t" + value + b"\n",
            key + b" " + value + b"\n",  # no tab
            key + value + b"\n",
            key + b"\n",
            key + b"\t\t" + value + b"\n",  # a second tab
            key + b"\t" + value + b"\t\n",
            key + b"\t" + value + b"\r\n",  # CR
            key + b"\t" + value + b" \n",
            key + b"\t " + value + b"\n",
            key + b"\t\n",  # no value
            key + b"\t" + value,  # no line feed
            b"\n",  # an empty line
            b"",  # the line is missing
        )
        # the flags are alike, so each has half of them
        for line in damaged[number % 2 :: 2] if name in FLAGS else damaged:
            yield ROOM, replaced(number, line)
    # cut at each line: after its line feed, before it, after its tab, and in its name
    whole = lines(PLAIN)
    for number, line in enumerate(whole):
        front = b"".join(whole[:number])
        for part in (line[:-1], line[: line.index(b"\t") + 1], line[:1], b""):
            yield ROOM, front + part
    # bytes after line 14 that are no pause, alone and before one; and bytes after a pause
    for after in NO_PAUSE + [whole[0], whole[-1], sheet()]:
        assert read(sheet() + after)[0] == 15, after
        yield ROOM, sheet() + after
    for after in (b"\n", b"x", b"pause\t61\n", b"pause\n", b"active\t1\n"):
        yield ROOM, sheet() + after + b"pause\t5\n"
    for after in AFTER_PAUSE:
        assert read(sheet() + b"pause\t5\n" + after)[0] == 16, after
        yield ROOM, sheet() + b"pause\t%d\n" % (len(after) % 3 * 30) + after
    # a pause where it does not belong: before every other line, and in its place
    for number in range(1, len(NAMES) + 1):
        yield ROOM, b"".join(whole[: number - 1]) + b"pause\t5\n" + b"".join(whole[number - 1 :][:2])
    yield ROOM, b"".join(whole[:-1]) + b"pause\t5\n"
    # a good pause after a bad line
    yield ROOM, sheet(PLAIN, seed=b"0" * 31) + b"pause\t5\n"
    yield ROOM, sheet(PLAIN, active=b"2") + b"pause\t5\n"
    # lines in another order, and line feeds of another kind
    for number in range(len(NAMES) - 1):
        order = list(whole)
        order[number], order[number + 1] = order[number + 1], order[number]
        yield ROOM, b"".join(order)
    yield ROOM, sheet().replace(b"\n", b"\r\n")
    yield ROOM, sheet().replace(b"\n", b"\r")
    yield ROOM, b"\n" + sheet()
    yield ROOM, b"\xef\xbb\xbf" + sheet()


def main():
    crate = os.path.join(os.path.dirname(os.path.abspath(__file__)), "..", "crates", "sheets")
    pairs = list(cases())
    written = {
        "stdin": "".join("%d\t%s\n" % (room, data.hex().upper()) for room, data in pairs),
        "stdout": "".join(answer(room, data) + "\n" for room, data in pairs),
    }
    assert len(written["stdin"]) < 1 << 18, "the program reads 262,144 bytes"
    for name, text in written.items():
        path = os.path.join(crate, name)
        if "--check" in sys.argv:
            with open(path) as file:
                if file.read() != text:
                    sys.exit("%s is not what this script writes" % os.path.normpath(path))
        else:
            with open(path, "w") as file:
                file.write(text)
    print("%d cases" % len(pairs))


main()

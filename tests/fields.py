#!/usr/bin/env python3
"""The cases of crates/field_cases, and what it must print: written from document 01, "Requests and fields", not from the Rattle code.

    tests/fields.py          writes crates/field_cases/stdin and stdout
    tests/fields.py --check  fails where those files are not what it would write
"""
import pathlib
import sys

CRATE = pathlib.Path(__file__).resolve().parent.parent / "crates" / "field_cases"
TAG = 0x10
LENGTHS = (0, 1, 254, 255, 256, 512)
WRITTEN = (0, 1, 253, 254, 255, 256, 512, 65535)


class Malformed(Exception):
    pass


def fields_of(payload):
    """Tag, place of the value and length of each field; a payload that does not end at a field's end is malformed."""
    found, at = [], 0
    while at < len(payload):
        head = payload[at : at + 2]
        if len(head) < 2:
            raise Malformed
        start, length = at + 2, head[1]
        if length == 0xFF:
            two = payload[at + 2 : at + 4]
            if len(two) < 2:
                raise Malformed
            start, length = at + 4, int.from_bytes(two, "big")
        if len(payload) < start + length:
            raise Malformed
        found.append((head[0], start, length))
        at = start + length
    return found


def values(payload, tag):
    """The values of the fields with the tag, in their order."""
    return [payload[b : b + n] for t, b, n in fields_of(payload) if t == tag]


def lookup(found):
    """Absent, once or twice, which is twice or more; and the first value."""
    if not found:
        return ";10 absent"
    return (";10 twice=" if len(found) > 1 else ";10=") + found[0].hex().upper()


def report(payload):
    try:
        found = fields_of(payload)
    except Malformed:
        return "malformed"
    return "".join("%02X@%d+%d " % f for f in found) + lookup(values(payload, TAG))


def short(tag, value):
    return bytes((tag, len(value))) + value


def long(tag, value):
    return bytes((tag, 0xFF)) + len(value).to_bytes(2, "big") + value


def field(tag, value):
    """As responses are written: the short form whenever it fits."""
    return short(tag, value) if len(value) <= 254 else long(tag, value)


def report_write(length, size):
    """A field written from place 1 on into the first `size` of zeros, or nothing where it does not fit."""
    value, next = b"\x5a" * length, 1
    out = bytearray(65552)
    if length <= 65535 and 1 + len(field(TAG, value)) <= size:
        next = 1 + len(field(TAG, value))
        out[1:next] = field(TAG, value)
    back = values(bytes(out[1:next]), TAG)
    read = "absent" if not back else "same" if back == [value] else "other"
    return "%d %s %s %s" % (next, bytes(out[:6]).hex().upper(), read, "clean" if not any(out[next:]) else "beyond")


def pattern(n):
    return bytes((7 * i + n) % 256 for i in range(n))


def whole_payloads():
    """Payloads that are read as they are."""
    a, b = short(TAG, b"\xaa"), short(TAG, b"\xbb\xbc")
    unknown = short(0xFE, b"\x01\x02\x03") + long(0xC0, b"") + short(0x00, b"\x10")
    within = short(0x11, a)
    yield from (b"", bytes.fromhex("1000"), bytes.fromhex("10FF0000"), bytes.fromhex("10FF"))
    yield from (a + b, b + a, short(TAG, b"") + a, long(TAG, b"") + b, a + long(TAG, pattern(300)))
    yield from (unknown, unknown + a, unknown + b + a, within, within + b, short(0xFF, a) + a, long(0xFF, b"\xff\xff") + b)
    yield from (long(0x2A, pattern(512)) + a, short(0x2B, pattern(254)) + b, long(0x2B, pattern(255)) + b + a)
    yield from (a + b"\x10", a + b"\x10\x01", b"\x10\xff\xff\xff" + pattern(600), b"\x11\xff\x00", unknown + b"\x10\xff\x00\x02\x01")


def doubled_payloads():
    """The tag, or another one, more than once: equal, empty, in both forms, apart, more often than a byte counts, with a malformed end."""
    a, empty, other = short(TAG, b"\xaa"), short(TAG, b""), short(0x11, b"\x10\x01\xaa")
    yield from (a + a, a + empty, a + a + empty, empty + empty, long(TAG, b"") + empty, long(TAG, b"\xaa") + a, a + other + a)
    yield from (empty * 256, a + empty * 256, a + other + other, other + other, a + bytes((0x11, 0)) * 257)
    yield from (a + a + b"\x10", a + a + b"\x10\x02\x01", a + a + b"\x11\xff", a + empty + empty + b"\x10\xff\x00\x01")


def cut_payloads():
    """Payloads that are cut at every byte: each length in both forms, where the short one can hold it."""
    for n in LENGTHS:
        if n <= 254:
            yield short(TAG, pattern(n))
        yield long(TAG, pattern(n))
    yield short(0x01, pattern(8)) + long(TAG, pattern(2)) + short(TAG, b"\x01")


def writes():
    """A value's length, and a buffer that it fits exactly, or by one byte not; no field has 65,536 bytes."""
    for n in WRITTEN:
        fits = 1 + len(field(TAG, b"\x5a" * n))
        yield from ((n, fits), (n, fits - 1), (n, fits + 1))
    yield from ((65536, 65552), (0, 0), (1, 1))


def cases():
    """Lines of standard input, each with the lines that it must print."""
    for p in (*whole_payloads(), *doubled_payloads()):
        yield p.hex().upper(), [report(p)]
    for p in cut_payloads():
        yield "*" + p.hex().upper(), [report(p[:n]) for n in range(len(p) + 1)]
    for n, size in writes():
        yield "+%08X%08X" % (n, size), [report_write(n, size)]


def main():
    made = list(cases())
    files = {
        "stdin": "".join(line + "\n" for line, _ in made),
        "stdout": "".join(line + "\n" for _, lines in made for line in lines),
    }
    if sys.argv[1:] == ["--check"]:
        wrong = [name for name in files if (CRATE / name).read_text() != files[name]]
        sys.exit("tests/fields.py: not as written here: " + ", ".join(wrong) if wrong else 0)
    for name, text in files.items():
        (CRATE / name).write_text(text)


main()

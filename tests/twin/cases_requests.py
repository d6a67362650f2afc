"""Cases for checks 1 to 7: lengths and Lc, CLA, INS, P1 and P2, the fields of a payload, PIN1 and CID."""

from twin.bench import (
    ACCESS, CHALLENGE, CID, CONFIRM, DRAW, NAMES, PIN1, PIN2, READ_CARD, READ_USER_DATA, SIGN, VERIFY_CARD, WRITE_USER_DATA, fresh,
    hashes, header, join, loaded, long_field, long_lc, off_by_last, plain, request, short_lc, sized, some,
)
from twin.request import field

PIN1_FIELD = field(0x10, PIN1)
READ = header(READ_CARD)
UNKNOWN = 0xEE


def filled(length: int) -> bytes:
    """A payload of exactly this length with PIN1 and CID, and one unknown field for the rest."""
    start = join(ACCESS)
    return start + long_field(UNKNOWN, some(length - len(start) - 4))


def lengths(script):
    rows = (
        ("no byte", b""),
        ("one byte", b"\0"),
        ("four bytes", READ),
        ("five bytes ending in Lc 00", READ + b"\0"),
        ("five bytes ending in Lc 01", READ + b"\1"),
        ("six bytes, Lc 00 and half its length", READ + b"\0\1"),
        ("six bytes, Lc 00 and half its length, 00", READ + b"\0\0"),
        ("six bytes, Lc 01: the first whole request, malformed", READ + b"\1\x10"),
        ("six bytes, Lc 02", READ + b"\2\x10"),
        ("seven bytes, three-byte Lc of 0", READ + b"\0\0\0"),
        ("seven bytes, three-byte Lc of 1", READ + b"\0\0\1"),
        ("eight bytes, three-byte Lc of 0", READ + b"\0\0\0\x10"),
        ("eight bytes, three-byte Lc of 1, malformed", READ + b"\0\0\1\x10"),
        ("eight bytes, three-byte Lc of 256", READ + b"\0\1\0\x10"),
        ("one-byte Lc", READ + short_lc(PIN1_FIELD)),
        ("one-byte Lc, one too small", READ + bytes([33]) + PIN1_FIELD),
        ("one-byte Lc, one too large", READ + bytes([35]) + PIN1_FIELD),
        ("three-byte Lc with a small length", READ + long_lc(PIN1_FIELD)),
        ("three-byte Lc, one too small", READ + b"\0\0\x21" + PIN1_FIELD),
        ("three-byte Lc, one too large", READ + b"\0\0\x23" + PIN1_FIELD),
        ("payload of 254, one-byte Lc", READ + short_lc(filled(254))),
        ("payload of 255, one-byte Lc", READ + short_lc(filled(255))),
        ("payload of 255, three-byte Lc", READ + long_lc(filled(255))),
        ("payload of 256, three-byte Lc", READ + long_lc(filled(256))),
        ("payload of 256, one-byte Lc FF", READ + b"\xff" + filled(256)),
        ("1,023 bytes", READ + long_lc(filled(1016))),
        ("1,024 bytes", READ + long_lc(filled(1017))),
        ("1,025 bytes", READ + long_lc(filled(1018))),
        ("1,025 bytes and a wrong CLA", header(READ_CARD, cla=0x80) + long_lc(filled(1018))),
        ("1,280 bytes", READ + long_lc(filled(1273))),
    )
    script.use(fresh())
    for words, one in rows:
        script.case(words, None, one)


def classes(script):
    script.use(fresh())
    for cla in (0x01, 0x10, 0x7F, 0x80, 0xFF):
        script.case(f"CLA {cla:02X}", None, plain(READ_CARD, *ACCESS, cla=cla))
    script.case("CLA 80 and INS 00", None, plain(0x00, *ACCESS, cla=0x80))


def instructions(script):
    """Settle alone, over a payload that is malformed: 6A86 for the thirteen commands, 6D00 for all else."""
    script.use(fresh())
    for ins in range(256):
        settled = script.settle(header(ins) + b"\1\x10", b"\xee", DRAW)
        assert settled.reason == (5 if ins in NAMES else 3)


def parameters(script):
    script.use(fresh())
    pairs = ((0, 1), (0, 2), (0, 3), (0, 4), (0, 0x80), (0, 0xFF), (1, 0), (2, 0), (0x80, 0), (0xFF, 0),
             (1, 1), (1, 2), (1, 3), (2, 1), (0xFF, 1), (0xFF, 2), (0xFF, 0xFF))
    for p1, p2 in pairs:
        script.case(f"P1 {p1:02X}, P2 {p2:02X}", None, plain(READ_CARD, *ACCESS, p1=p1, p2=p2))


def walks(script):
    """Payloads that end at a field's end, or not."""
    script.use(fresh())
    access = join(ACCESS)
    rows = (
        ("a lone tag", b"\xee"),
        ("tag and length 1 without a value", b"\xee\1"),
        ("a value one byte short", b"\xee\3ab"),
        ("length 0 at the end", b"\xee\0"),
        ("tag and the long mark", b"\xee\xff"),
        ("tag, the long mark, half a length", b"\xee\xff\0"),
        ("tag, the long mark, length 0", b"\xee\xff\0\0"),
        ("tag, the long mark, length 1 without a value", b"\xee\xff\0\1"),
        ("tag, the long mark, length 1", b"\xee\xff\0\1a"),
        ("the long mark, a length of 65,535", b"\xee\xff\xff\xffa"),
        ("254 bytes, short form", b"\xee\xfe" + some(254)),
        ("254 bytes, short form, one byte short", b"\xee\xfe" + some(253)),
        ("254 bytes, long form", long_field(UNKNOWN, some(254))),
        ("255 bytes, long form", long_field(UNKNOWN, some(255))),
        ("255 bytes of 00 after FF: an empty field, then empty ones, then a lone 00", b"\xee\xff" + bytes(255)),
        ("256 bytes of 00 after FF: an empty field, then empty ones", b"\xee\xff" + bytes(256)),
        ("256 bytes, long form", long_field(UNKNOWN, some(256))),
        ("one byte too many after the last field", b"\xee\1ab"),
    )
    for words, tail in rows:
        script.case(words, None, READ + sized(access + tail))
    script.case("1000 alone: PIN1 is there and empty", None, READ + sized(b"\x10\0"))
    script.case("10FF0000 alone: the same", None, READ + sized(b"\x10\xff\0\0"))
    script.case("10FF alone", None, READ + sized(b"\x10\xff"))


def stored_lengths(script):
    """WRITE_USER_DATA stores what was read, READ_USER_DATA writes it with the shortest length."""
    for length in (1, 2, 127, 128, 253, 254, 255, 256, 257, 511, 512, 513):
        forms = (field(0x2A, some(length, length)), long_field(0x2A, some(length, length + 1)))
        for form in forms[1:] if length > 254 else forms:
            words = f"User_Data of {length}, {'long' if form[1] == 0xFF else 'short'} form"
            script.case(words, fresh(), request(WRITE_USER_DATA, form), request(READ_USER_DATA))
    script.case("2A FF and 255 bytes of 00", fresh(), request(WRITE_USER_DATA, b"\x2a\xff" + bytes(255)))
    script.case("2A FF and 256 bytes of 00", None, request(WRITE_USER_DATA, b"\x2a\xff" + bytes(256)))
    script.case("PIN1, CID and Challenge in long form", None,
                plain(VERIFY_CARD, long_field(0x10, PIN1), long_field(0x01, CID), long_field(0x16, CHALLENGE)))


def unknown_tags(script):
    script.use(loaded())
    rows = (
        ("before, between and after", plain(
            READ_USER_DATA, (0x77, b"x"), (0x10, PIN1), (0x00, b""), (0x01, CID), (0xFF, b"y"))),
        ("a tag of another command, of a length wrong there", request(VERIFY_CARD, (0x16, CHALLENGE), (0x35, b"1"))),
        ("PIN2 and CVC where no code is asked", request(READ_USER_DATA, (0x11, b""), (0x19, b"toolong"))),
        ("New_PIN3, Curve_ID, Card_Data and others of the manual", request(
            SIGN, *CONFIRM, *hashes(1), (0x1E, PIN1), (0x05, b"ed25519"), (0x0C, b""), (0x52, b"raw"), (0x5C, b"k"))),
        ("PIN1 inside another field does not count", plain(READ_CARD, (0x77, PIN1_FIELD))),
        ("PIN1 after a field that holds a wrong one", plain(READ_CARD, (0x77, field(0x10, bytes(32))), (0x10, PIN1))),
        ("fields in another order", plain(VERIFY_CARD, (0x16, CHALLENGE), (0x01, CID), (0x10, PIN1))),
        ("only unknown tags", plain(READ_CARD, (0x77, b""), (0x78, b"x"))),
    )
    for words, one in rows:
        script.case(words, None, one)


def codes_and_cid(script):
    script.use(fresh())
    pins = (("absent", None), ("empty", b""), ("of 31 bytes", PIN1[:31]), ("of 33 bytes", PIN1 + b"\0"),
            ("wrong in the last byte", off_by_last(PIN1)), ("wrong in the first byte", b"\0" + PIN1[1:]),
            ("of zeros", bytes(32)), ("that is PIN2", PIN2))
    cids = (("absent", None), ("empty", b""), ("of 7 bytes", CID[:7]), ("of 9 bytes", CID + b"\0"),
            ("wrong in the last byte", off_by_last(CID)), ("wrong in the first byte", b"\0" + CID[1:]))
    for words, pin in pins:
        fields = [] if pin is None else [(0x10, pin)]
        script.case(f"PIN1 {words}", None, plain(READ_USER_DATA, *fields, (0x01, CID)))
        script.case(f"READ_CARD, PIN1 {words}", None, plain(READ_CARD, *fields, (0x01, CID)))
    script.use(fresh())
    for words, cid in cids:
        fields = [] if cid is None else [(0x01, cid)]
        script.case(f"CID {words}", None, plain(READ_USER_DATA, (0x10, PIN1), *fields))
        script.case(f"READ_CARD, CID {words}", None, plain(READ_CARD, (0x10, PIN1), *fields))


GROUPS = (
    ("lengths and Lc", lengths),
    ("CLA", classes),
    ("every INS", instructions),
    ("P1 and P2", parameters),
    ("payloads and their ends", walks),
    ("lengths of fields, stored and read back", stored_lengths),
    ("unknown tags", unknown_tags),
    ("PIN1 and CID", codes_and_cid),
)

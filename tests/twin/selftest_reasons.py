"""Checks of the twin's numbers and reasons against those of document 01, worked out by hand. selftest.py runs them."""

from twin.by_hand import ACCESS, CID, CID_FIELD, CONFIRMED, FRESH, PIN1, PIN2, WITH_WALLET, WRITTEN, hashes, request
from twin.card import ask, settle
from twin.image import Card, encode


def numbers_in_order():
    """With a number 1 to 4 there is no reason, word or byte, whatever a check would say of the request."""
    good, damaged = encode(FRESH), encode(FRESH._replace(status=4))
    asked = {number: (number, 0, 0, b"") for number in range(1, 4)}
    settled = {number: (number, 0, 0, b"", None) for number in range(1, 5)}
    for bad in (b"", request("FB", ACCESS)):
        draw = bytes(31)
        assert ask(damaged, bad, draw, 0) == asked[1] and settle(damaged, bad, draw, b"", 0, 0) == settled[1]
        assert ask(good, bad, draw, 2047) == asked[2]
        assert settle(good, bad, draw, b"", 2047, 4096) == settle(good, bad, draw, b"", 2048, 4095) == settled[2]
        assert ask(good, bad, draw) == asked[3] and settle(good, bad, draw, b"") == settled[3]
    assert settle(good, b"", bytes(32), b"stray").word == 0x6700
    assert settle(good, request("F2", ACCESS), bytes(32), b"\0") == settled[4]
    assert settle(good, request("F8", CONFIRMED), bytes(32), b"") == settled[4]
    assert settle(good, request("F6", WRITTEN + "350400000001"), bytes(32), b"\2") == settled[4]


def refused_by(check: int, word: int, card: Card, sent: bytes, counted: int = 0):
    """Both calls name the check and its word; the card stays, but for a wrong code counted."""
    image, draw = encode(card), bytes(32)
    left = encode(card._replace(wrong_codes=card.wrong_codes + counted))
    assert ask(image, sent, draw) == (0, check, word, b""), (check, sent.hex())
    assert settle(image, sent, draw, b"\xee") == (0, check, word, word.to_bytes(2, "big"), left), (check, sent.hex())


def reasons():
    rows = (("00F2000000", 1, 0x6700), ("80F200000110", 2, 0x6E00), ("00F500000110", 3, 0x6D00),
            ("00F200010110", 4, 0x6982), ("00F2FF020110", 4, 0x6982), ("00F2FF000110", 4, 0x6A86), ("00F200030110", 4, 0x6A86),
            ("00F200000110", 5, 0x6A86), ("00F20000020100", 6, 0x6A86), ("00F30000221020" + PIN1, 7, 0x6A86))
    for request_hex, check, word in rows:
        refused_by(check, word, FRESH, bytes.fromhex(request_hex))
    not_active = FRESH._replace(activated=0)
    refused_by(7, 0x6A86, not_active, request("F7", "1020" + PIN1))
    refused_by(7, 0x6A86, not_active, request("FB", "1020" + PIN1))
    refused_by(8, 0x6985, not_active, request("FB", ACCESS))
    refused_by(9, 0x6985, FRESH, request("FB", ACCESS))
    refused_by(10, 0x6A86, WITH_WALLET, request("FB", ACCESS))
    refused_by(11, 0x6A86, WITH_WALLET, request("FB", CONFIRMED + "5000"))
    refused_by(12, 0x6985, WITH_WALLET, request("FB", CONFIRMED))


def reasons_of_codes():
    """A code or CID of another length is one that is not equal, and no unfit field. PIN2 and the CVC have one number."""
    for pin1 in ("", "1000", "101F" + PIN1[2:], "1021" + PIN1 + "00"):
        refused_by(6, 0x6A86, FRESH, request("F3", pin1 + CID_FIELD), counted=int(pin1 != ""))
    for cid in ("", "0100", "0107" + CID[:-2], "0109" + CID + "00"):
        refused_by(7, 0x6A86, FRESH, request("F3", "1020" + PIN1 + cid))
    pins = "1120" + PIN2, "", "1100", "111F" + PIN2[2:], "1121" + PIN2 + "00", "1120" + PIN1
    cvcs = "1903313233", "", "1900", "19023132", "190431323300", "1903313234"
    asking = WITH_WALLET._replace(cvc_used=1)
    for pin2 in pins:
        for cvc in cvcs:
            check = 11 if (pin2, cvc) == (pins[0], cvcs[0]) else 10
            wrong = cvc if pin2 == pins[0] else pin2
            refused_by(check, 0x6A86, asking, request("FB", ACCESS + pin2 + cvc + "5000"), counted=int(check == 10 and wrong != ""))


def reasons_of_fields():
    """Codes before fields, also where an unfit field is what asks for PIN2; fields before conditions."""
    refused_by(10, 0x6A86, FRESH, request("E0", ACCESS + "2B00"))
    refused_by(10, 0x6A86, FRESH, request("E0", ACCESS + "2D00"))
    refused_by(11, 0x6A86, FRESH, request("E0", CONFIRMED + "2B00"))
    refused_by(11, 0x6A86, FRESH, request("E0", ACCESS + "1100" + "2A00"))
    used_up = WITH_WALLET._replace(remaining=0)
    refused_by(11, 0x6A86, used_up, request("FB", CONFIRMED + hashes(11)))
    refused_by(12, 0x6985, used_up, request("FB", CONFIRMED + hashes(10)))


def no_reason():
    """A command that is done has none; nor has ask where the issuer's word, check 13, is still to come."""
    good, draw = encode(FRESH), bytes(32)
    write = request("F6", WRITTEN + "350400000001")
    assert ask(good, write, draw)[:3] == (0, 0, 0x9000)
    assert settle(good, write, draw, b"\0") == (0, 13, 0x6286, b"\x62\x86", good)
    assert settle(good, write, draw, b"\1")[:3] == (0, 0, 0x9000)
    new_codes = request("FA", CONFIRMED + "1220" + "AB" * 32 + "1320" + "CD" * 32)
    assert ask(good, new_codes, draw) == (0, 0, 0x9000, b"")
    assert settle(good, new_codes, draw, b"")[:3] == (0, 0, 0x9003)


TESTS = (numbers_in_order, reasons, reasons_of_codes, reasons_of_fields, no_reason)

"""Checks of the twin against bytes worked out by hand from document 01. Run: python3 tests/twin/selftest.py"""

import os
import sys

sys.path.insert(0, os.path.dirname(os.path.dirname(os.path.abspath(__file__))))
from twin import selftest_activation, selftest_delay, selftest_handover, selftest_plays, selftest_reasons, selftest_twice
from twin.by_hand import (
    ACCESS, CHALLENGE, CID, CID_FIELD, CONFIRMED, FRESH, KEY, KEY_CHALLENGE, KEY_SALT, PIN1, PIN2, SALT, SEED, SHEET_LINES,
    WITH_WALLET, WRITTEN, hashes, questions, refused, sheet, tapped, word_of,
)
from twin.card import is_card, personalise, settle
from twin.image import EMPTY, LOADED, PURGED, decode, encode
from twin.request import fields_of

TOP = 4_294_967_295


# ---------------------------------------------------------------- the sheet


def firstread_line():
    request_hex = "00F20000221020" + PIN1
    settled = settle(personalise(sheet())[1], bytes.fromhex(request_hex), bytes(32), b"")
    assert settled.response.hex().upper() == "0108AA000000000166750201010509736563703235366B316304000000009000"


def sheet_makes_a_fresh_card():
    answer, image = personalise(sheet(curve="ed25519", max="4294967295", usecvc="1", active="0", cvc="007"))
    card = decode(image)
    assert answer == 0 and is_card(image) and card.cvc == b"007" and card.max_signatures == TOP
    assert (card.curve, card.cvc_used, card.activated, card.status) == (2, 1, 0, EMPTY)
    assert image[80:96].hex().upper() == SEED and image[96:104].hex() == "0001010101000100" and image[104:] == b"\1" + bytes(3369)


def sheet_bad_lines():
    rows = (("cid", "AA0000000001667"), ("pin1", PIN1.replace("1", "a")), ("pin2", PIN2 + "2"), ("cvc", "12"),
            ("curve", "secp256r1"), ("max", "0"), ("reusable", "2"), ("usecvc", ""), ("setpin1", "01"),
            ("setpin2", " 1"), ("nopurge", "1 "), ("replay", "1\r"), ("active", "yes"), ("seed", SEED[:-1]))
    for line, (name, value) in enumerate(rows, 1):
        assert personalise(sheet(**{name: value})) == (line, None), name
    for value in ("00", "01", "+1", "4294967296", "10000000000", ""):
        assert personalise(sheet(max=value)) == (6, None), value
    for value in ("", SEED + "0", SEED + "00", SEED[:-2], SEED.lower(), SEED[:-1] + "G", SEED + " ", " " + SEED):
        assert personalise(sheet(seed=value)) == (14, None), value


def sheet_missing_and_surplus():
    lines = [line.encode() + b"\n" for line in SHEET_LINES]
    for count in range(14):
        assert personalise(b"".join(lines[:count])) == (count + 1, None)
    assert personalise(b"".join(lines)[:-1]) == (14, None)
    assert personalise(b"".join(lines) + b"\n") == (15, None)
    assert personalise(b"", 4095) == (99, None)
    assert personalise(b"\n" + b"".join(lines)) == (1, None)


# ---------------------------------------------------------------- the drill sheet


def drill_1():
    assert fields_of(bytes.fromhex("1000")) == {0x10: b""}


def drill_2():
    assert fields_of(bytes.fromhex("10FF0000")) == {0x10: b""}


def drill_3():
    assert fields_of(bytes.fromhex("10FF")) is None


def drill_4():
    assert fields_of(b"") == {}


def drill_5():
    assert word_of("00F2000000") == "6700"


def drill_6():
    assert word_of("80000000011000") == "6700" and word_of("800000000110") == "6E00"


def drill_7():
    assert word_of("00F201020110") == "6982"


NINE = FRESH._replace(issuer_data_counter=9)


def drill_8():
    refused(NINE, "F6", WRITTEN + "350400000009", "6985", "01")


def drill_9():
    response, card = tapped(NINE, "F6", WRITTEN + "35040000000A", "01")
    assert response == CID_FIELD + "9000"
    assert (card.issuer_data.hex().upper(), card.issuer_data_signature.hex(), card.issuer_data_counter) == (
        "AABB", "55" * 64, 10)


def drill_10():
    card = WITH_WALLET._replace(remaining=1, signed_hashes=3)
    response, card = tapped(card, "FB", CONFIRMED + hashes(5), "77" * 320)
    assert (card.remaining, card.signed_hashes, card.status) == (0, 8, LOADED)
    assert response == CID_FIELD + "61FF0140" + "77" * 320 + "620400000000" + "630400000008" + "9000"


def drill_11():
    card = WITH_WALLET._replace(signed_hashes=4_294_967_290)
    refused(card, "FB", CONFIRMED + hashes(6), "6985")
    assert tapped(card, "FB", CONFIRMED + hashes(5), "77" * 320)[1].signed_hashes == TOP


def drill_12():
    card = tapped(WITH_WALLET._replace(user_counter=TOP), "FB", CONFIRMED + hashes(1), "77" * 64)[1]
    assert (card.user_counter, card.user_protected_counter) == (0, 1)


# ---------------------------------------------------------------- the slips


def slip_remaining_per_hash():
    assert tapped(WITH_WALLET, "FB", CONFIRMED + hashes(3), "77" * 192)[1].remaining == 6


def slip_counter_before_the_answer():
    payload = WRITTEN + "35040000000A"
    assert tapped(NINE, "F6", payload, "00") == ("6286", NINE)
    assert questions(NINE, "F6", payload) == "0500000100" + "4E" + "55" * 64 + CID + "AABB" + "0000000A"


def slip_ff_as_255():
    value = "00" * 255
    assert fields_of(bytes.fromhex("2AFF" + value)) is None  # an empty 2A, 126 empty fields of tag 00, a lone 00
    assert fields_of(bytes.fromhex("2AFF" + value + "00"))[0x2A] == b""
    assert len(fields_of(bytes.fromhex("2AFF00FF" + value))[0x2A]) == 255


def slip_empty_array_is_no_repeat():
    card = WITH_WALLET._replace(last_signatures=bytes(64))
    for payload in ("5000", "5000510120", "510120", "5020" + "AB" * 32):
        refused(card, "FB", CONFIRMED + payload, "6A86")


def slip_repeat_is_free():
    card = WITH_WALLET._replace(last_signatures=b"\x99" * 128, remaining=0, signed_hashes=TOP, user_counter=5)
    assert questions(card, "FB", CONFIRMED) == ""
    response, after = tapped(card, "FB", CONFIRMED)
    assert response == CID_FIELD + "6180" + "99" * 128 + "620400000000" + "6304FFFFFFFF" + "9000"
    assert after == card
    refused(WITH_WALLET, "FB", CONFIRMED, "6985")


# ---------------------------------------------------------------- the commands


def read_card():
    response, _ = tapped(WITH_WALLET, "F2", "1020" + PIN1)
    assert response == (CID_FIELD + "020102" + "0509736563703235366B31" + "630400000000"
                        + "6041" + KEY + "620400000007" + "9000")
    not_active = FRESH._replace(activated=0)
    assert tapped(not_active, "F2", "1020" + PIN1)[0] == CID_FIELD + "020101" + "3A0100" + "3B10" + SEED + "9000"


def create_wallet():
    card = FRESH._replace(wallet_number=65_534)
    assert questions(card, "F8", CONFIRMED) == "01FFFF010000"
    response, card = tapped(card, "F8", CONFIRMED, KEY)
    assert response == CID_FIELD + "020102" + "6041" + KEY + "9000"
    assert (card.status, card.wallet_number, card.remaining) == (LOADED, 65_535, 7)
    refused(FRESH._replace(wallet_number=65_535), "F8", CONFIRMED, "6985")


def check_wallet():
    one, other = "77" * 64, "88" * 64
    payload = ACCESS + "1610" + CHALLENGE
    ask_wallet = "030001010020" + CHALLENGE + SALT
    answer = CID_FIELD + "1710" + SALT + "6140" + one
    assert questions(WITH_WALLET, "F9", payload) == ask_wallet
    assert tapped(WITH_WALLET, "F9", payload, one)[0] == answer + "9000"
    assert questions(WITH_WALLET, "F9", payload + "1400") == ask_wallet + "040001010041" + KEY
    assert tapped(WITH_WALLET, "F9", payload + "1400", one + other)[0] == (
        answer + "640400000001" + "0440" + other + "9000")
    payload += "1410" + KEY_CHALLENGE
    assert questions(WITH_WALLET, "F9", payload) == (
        ask_wallet + "040001010061" + KEY + KEY_CHALLENGE + KEY_SALT)
    response, card = tapped(WITH_WALLET._replace(check_wallet_counter=TOP), "F9", payload, one + other)
    assert response == answer + "6404FFFFFFFF" + "1510" + KEY_SALT + "0440" + other + "9000"
    assert card.check_wallet_counter == TOP


def set_pin():
    for new1, new2, word in ((PIN1, PIN2, "9000"), ("AB" * 32, PIN2, "9001"), (PIN1, "AB" * 32, "9002"),
                             ("AB" * 32, "CD" * 32, "9003")):
        payload = CONFIRMED + "1220" + new1 + "1320" + new2
        assert questions(FRESH, "FA", payload) == ""
        response, card = tapped(FRESH, "FA", payload)
        assert response == CID_FIELD + word
        assert (card.pin1.hex().upper(), card.pin2.hex().upper()) == (new1, new2)
    fixed = FRESH._replace(pin1_may_change=0)
    refused(fixed, "FA", CONFIRMED + "1220" + "AB" * 32 + "1320" + PIN2, "6985")
    assert tapped(fixed, "FA", CONFIRMED + "1220" + PIN1 + "1320" + "AB" * 32)[0] == CID_FIELD + "9002"


def verify_card():
    payload = ACCESS + "1610" + CHALLENGE
    assert questions(FRESH, "F3", payload) == "040000010020" + CHALLENGE + SALT
    assert tapped(FRESH, "F3", payload, "77" * 64)[0] == CID_FIELD + "1710" + SALT + "0440" + "77" * 64 + "9000"


def validate_card():
    card = FRESH._replace(card_validation_counter=65_534)
    assert questions(card, "F4", CONFIRMED) == "040000010002FFFF"
    response, card = tapped(card, "F4", CONFIRMED, "77" * 64)
    assert response == CID_FIELD + "1802FFFF" + "0440" + "77" * 64 + "9000"
    refused(card, "F4", CONFIRMED, "6985")


def purge_wallet():
    card = WITH_WALLET._replace(signed_hashes=5, last_signatures=bytes(64))
    response, after = tapped(card, "FC", CONFIRMED)
    assert response == CID_FIELD + "0201019000"
    assert after == card._replace(status=EMPTY, remaining=0, wallet_public_key=b"", last_signatures=b"")
    response, after = tapped(card._replace(reusable=0), "FC", CONFIRMED)
    assert response == CID_FIELD + "0201039000" and after.status == PURGED and after.wallet_number == 1


def user_data():
    assert tapped(FRESH, "E1", ACCESS)[0] == CID_FIELD + "2C0400000000" + "2D0400000000" + "9000"
    response, card = tapped(FRESH, "E0", CONFIRMED + "2A0141" + "2B0142" + "2C0400000003" + "2D0400000004")
    assert response == CID_FIELD + "9000"
    assert tapped(card, "E1", ACCESS)[0] == (
        CID_FIELD + "2A0141" + "2B0142" + "2C0400000003" + "2D0400000004" + "9000")
    refused(card, "E0", ACCESS + "2B0142", "6A86")
    refused(card, "E0", CONFIRMED, "6A86")
    assert tapped(card, "E0", ACCESS + "2A0143")[1] == card._replace(user_data=b"C")


def read_issuer_data():
    assert tapped(FRESH, "F7", ACCESS)[0] == CID_FIELD + "350400000000" + "9000"
    card = tapped(FRESH, "F6", WRITTEN + "350400000001", "01")[1]
    assert tapped(card, "F7", ACCESS + "230100")[0] == (
        CID_FIELD + "3202AABB" + "3340" + "55" * 64 + "350400000001" + "9000")
    refused(card, "F7", ACCESS + "230101", "6A86")


# ---------------------------------------------------------------- images


def what_is_a_card():
    changes = (dict(status=PURGED), dict(wallet_number=0), dict(remaining=8), dict(activated=0), dict(curve=2),
               dict(wallet_public_key=b""), dict(wallet_public_key=b"\5" * 65), dict(max_signatures=0),
               dict(issuer_data_signature=b"\1" * 64), dict(reusable=0, wallet_number=2), dict(cvc_used=2))
    assert is_card(encode(WITH_WALLET))
    for change in changes:
        assert not is_card(encode(WITH_WALLET._replace(**change))), change
    # Set to 11: a counter's byte, a length of 11 (zeros are data too), lengths of 2,816, eleven signatures.
    for place, still in ((181, True), (196, True), (709, False), (1223, False), (2833, False)):
        image = bytearray(encode(FRESH))
        image[place] = 11
        assert is_card(bytes(image)) == still, place


TESTS = (
    firstread_line, sheet_makes_a_fresh_card, sheet_bad_lines, sheet_missing_and_surplus,
    drill_1, drill_2, drill_3, drill_4, drill_5, drill_6, drill_7, drill_8, drill_9, drill_10, drill_11, drill_12,
    slip_remaining_per_hash, slip_counter_before_the_answer, slip_ff_as_255, slip_empty_array_is_no_repeat,
    slip_repeat_is_free,
    read_card, create_wallet, check_wallet, set_pin, verify_card, validate_card, purge_wallet, user_data,
    read_issuer_data, what_is_a_card,
    *selftest_reasons.TESTS, *selftest_twice.TESTS, *selftest_handover.TESTS, *selftest_activation.TESTS, *selftest_delay.TESTS,
    *selftest_plays.TESTS,
)


def main() -> int:
    failed = 0
    for test in TESTS:
        try:
            test()
        except AssertionError as wrong:
            failed += 1
            print(f"{test.__name__}: {wrong}")
    print(f"{len(TESTS) - failed} passed, {failed} failed")
    return 1 if failed else 0


if __name__ == "__main__":
    sys.exit(main())

"""Checks of ACTIVATE_CARD, worked out by hand, and of the card before and after it. selftest.py runs them."""

from twin.bench import DEFAULT_PIN1
from twin.by_hand import (
    ACCESS, CID, CID_FIELD, CONFIRMED, DRAW, FRESH, KEY, PIN1, PIN2, SEED, WITH_WALLET, hashes, questions, request, sheet, tapped,
)
from twin.card import ask, is_card, personalise, settle
from twin.image import ED25519, LOADED, PURGED, Card, decode, encode
from twin.selftest_reasons import refused_by
from twin.selftest_twice import DONE

ASLEEP = decode(personalise(sheet(active="0"))[1])
DEFAULT = DEFAULT_PIN1.hex().upper()
SIGNATURE = "3440" + "11" * 64
KEEP, RESET = (ACCESS + f"3601{byte}" + SIGNATURE for byte in ("00", "01"))
# READ_CARD's response on the card after: Status, curve, Signed_Hashes.
AWAKE = CID_FIELD + "020101" + "0509736563703235366B31" + "630400000000" + "9000"
BEFORE = CID_FIELD + "020101" + "3A0100" + "3B10" + SEED + "9000"
UNDER_DEFAULT = "1020" + DEFAULT + CID_FIELD
# Cards that are not activated, the curve's byte and its name's field.
CARDS = (
    (ASLEEP, "01", "0509736563703235366B31"),
    (ASLEEP._replace(curve=ED25519, replay_protection=0, activation_seed=bytes(16)), "02", "050765643235353139"),
    (ASLEEP._replace(pin1_may_change=0, cvc_used=1, reusable=0, activation_seed=b"\xff" * 16), "01", "0509736563703235366B31"),
    (ASLEEP._replace(user_data=b"A", user_protected_data=b"B", user_counter=3, issuer_data=b"C", issuer_data_signature=b"\x55" * 64,
                     issuer_data_counter=9), "01", "0509736563703235366B31"),
    (ASLEEP._replace(pin1=bytes.fromhex(DEFAULT)), "01", "0509736563703235366B31"),
)


def own(card: Card, payload: str) -> str:
    """The payload under this card's PIN1."""
    return payload.replace(PIN1, card.pin1.hex().upper(), 1)


def activation_of_the_paper():
    """The bytes that the ask's own example comes to."""
    asked = "06000001005911" + "11" * 63 + "AA00000000016675" + "00112233445566778899AABBCCDDEEFF" + "01"
    assert questions(ASLEEP, "FE", RESET) == asked
    assert tapped(ASLEEP, "FE", RESET, "01")[0] == "0108AA000000000166750201010509736563703235366B316304000000009000"
    assert tapped(ASLEEP, "F2", "1020" + PIN1)[0] == "0108AA000000000166750201013A01003B1000112233445566778899AABBCCDDEEFF9000"


def activation_asks():
    for card, curve, _ in CARDS:
        signed = "11" * 64 + CID + card.activation_seed.hex().upper()
        for payload, byte in ((KEEP, "00"), (RESET, "01")):
            assert questions(card, "FE", own(card, payload)) == "060000" + curve + "0059" + signed + byte


def activation_by_the_byte():
    """The last flag becomes 1, with Reset_PIN1 1 the first 32 bytes the default PIN1, and all else stays."""
    for card, _, name in CARDS:
        before = encode(card)
        response = CID_FIELD + "020101" + name + "630400000000" + "9000"
        for payload, pin1 in ((KEEP, before[:32]), (RESET, bytes.fromhex(DEFAULT))):
            settled = settle(before, request("FE", own(card, payload)), bytes(32), b"\1")
            assert settled[:3] == (0, 0, 0x9000) and settled.response.hex().upper() == response, card
            assert settled.image == pin1 + before[32:103] + b"\1" + before[104:] and is_card(settled.image), card
            assert settled == settle(before, request("FE", own(card, payload)), bytes.fromhex(DRAW), b"\1"), "the draw is not used"


def activation_fields():
    """Each absent, or of another length or value: check 11, also on a card that is activated."""
    reset, signature = "360101", SIGNATURE
    wrong = ("", reset), ("", signature), ("", ""), ("3600", signature), ("36020001", signature), ("36020100", signature)
    wrong += tuple((f"3601{byte}", signature) for byte in ("02", "10", "80", "FF"))
    wrong += tuple((reset, one) for one in ("3400", "3401" + "11", "343F" + "11" * 63, "3441" + "11" * 65))
    for card in (ASLEEP, FRESH, WITH_WALLET):
        for fields in wrong:
            refused_by(11, 0x6A86, card, request("FE", ACCESS + "".join(fields)))


def activation_checks():
    """PIN1, CID, fields, and no activated card, whatever its Status; PIN2 and the CVC are not read."""
    bad = "360102"
    refused_by(5, 0x6A86, ASLEEP, request("FE", "1020" + PIN2 + bad + bad))
    refused_by(6, 0x6A86, ASLEEP, request("FE", "1020" + PIN2 + bad), counted=1)
    refused_by(7, 0x6A86, ASLEEP, request("FE", "1020" + PIN1 + bad))
    purged = FRESH._replace(reusable=0, status=PURGED, wallet_number=1)
    for card in (FRESH, WITH_WALLET, WITH_WALLET._replace(remaining=0), purged):
        for payload in (KEEP, RESET):
            refused_by(12, 0x6985, card, request("FE", payload))
    for codes in ("1120" + PIN1, "1100", "1903393939", "1120" + PIN1 + "1100" + "1900" + "1900"):
        assert tapped(ASLEEP._replace(cvc_used=1), "FE", RESET + codes, "01")[0] == AWAKE


def activation_answers():
    """Yes, no, and nothing else; until 9000 the card is as it was, and it may be begun again."""
    image, sent = encode(ASLEEP), request("FE", RESET)
    for answers in (b"", b"\0\0", b"\1\1", b"\2", b"\x80", b"\xff", b"\1" * 64):
        assert settle(image, sent, bytes(32), answers) == (4, 0, 0, b"", None), answers
    assert ask(image, sent, bytes(32))[:3] == (0, 0, 0x9000)
    assert settle(image, sent, bytes(32), b"\0") == (0, 13, 0x6286, b"\x62\x86", image)
    assert settle(image, sent, bytes(32), b"\1")[:3] == (0, 0, 0x9000)


def before_activation():
    """Nothing else is done but READ_CARD and READ_ISSUER_DATA: by check 8 with the CID, by check 7 without it."""
    for ins, _, fields, _ in DONE:
        if ins not in ("F2", "F7", "FE"):
            refused_by(8, 0x6985, ASLEEP, request(ins, "".join(fields)))
        if ins != "F2":
            refused_by(7, 0x6A86, ASLEEP, request(ins, "".join(one for one in fields if one != CID_FIELD)))
    assert tapped(ASLEEP, "F2", "1020" + PIN1)[0] == BEFORE
    assert tapped(ASLEEP, "F7", ACCESS)[0] == CID_FIELD + "350400000000" + "9000"


def after_activation():
    """It is the card that the sheet makes with active 1, and the seed is told no more."""
    kept, reset = (tapped(ASLEEP, "FE", payload, "01")[1] for payload in (KEEP, RESET))
    assert kept == FRESH and reset == FRESH._replace(pin1=bytes.fromhex(DEFAULT))
    assert tapped(kept, "F2", "1020" + PIN1)[0] == tapped(reset, "F2", "1020" + DEFAULT)[0] == AWAKE
    for payload in (KEEP, RESET):
        refused_by(12, 0x6985, kept, request("FE", payload))
        refused_by(6, 0x6A86, reset, request("FE", payload), counted=1)
        refused_by(12, 0x6985, reset, request("FE", payload.replace(PIN1, DEFAULT)))


def under_the_reset_pin1():
    """In force from the next command; PIN2 is what it was."""
    card = tapped(ASLEEP, "FE", RESET, "01")[1]
    card = tapped(card, "F8", UNDER_DEFAULT + "1120" + PIN2, KEY)[1]
    refused_by(6, 0x6A86, card, request("FB", CONFIRMED + hashes(1)), counted=1)
    response, _ = tapped(card, "FB", UNDER_DEFAULT + "1120" + PIN2 + hashes(1), "77" * 64)
    assert response == CID_FIELD + "6140" + "77" * 64 + "620400000006" + "630400000001" + "9000"


def images_and_seeds():
    """Any 16 bytes are a seed; without them it is no card; not activated is Empty, with no wallet ever."""
    for seed in (bytes(16), b"\xff" * 16, bytes(range(16)), b"\0" * 15 + b"\1"):
        for card in (FRESH, ASLEEP, WITH_WALLET):
            image = encode(card._replace(activation_seed=seed))
            assert is_card(image) and len(image) == 3474 and image[80:96] == seed, seed
            assert not is_card(image[:80] + image[96:])
    for change in (dict(wallet_number=1), dict(status=PURGED, wallet_number=1, reusable=0), dict(activated=2),
                   dict(status=LOADED, wallet_number=1, wallet_public_key=bytes.fromhex(KEY))):
        assert not is_card(encode(ASLEEP._replace(**change))), change


TESTS = (
    activation_of_the_paper, activation_asks, activation_by_the_byte, activation_fields, activation_checks, activation_answers,
    before_activation, after_activation, under_the_reset_pin1, images_and_seeds,
)

"""Checks of what a purge takes and leaves, and of signatures without a wallet, worked out by hand. selftest.py runs them."""

from twin.by_hand import ACCESS, CID_FIELD, CONFIRMED, FRESH, KEY, PIN1, WITH_WALLET, hashes, request, tapped
from twin.card import ask, is_card, settle
from twin.image import ED25519, EMPTY, PURGED, Card, encode
from twin.selftest_reasons import refused_by

HELD = b"\x99" * 128
SIGNED = WITH_WALLET._replace(
    remaining=4, signed_hashes=5, last_signatures=HELD, check_wallet_counter=1, card_validation_counter=2, user_counter=3,
    user_protected_counter=4, user_data=b"A", user_protected_data=b"B", issuer_data=b"C", issuer_data_signature=b"\x55" * 64,
    issuer_data_counter=9,
)
REPEAT, PURGE = request("FB", CONFIRMED), request("FC", CONFIRMED)
# The repeat of the two signatures above: their field, Remaining, Signed_Hashes.
REPEATED = CID_FIELD + "6180" + "99" * 128 + "620400000004" + "630400000005" + "9000"


def purged(card: Card) -> Card:
    return tapped(card, "FC", CONFIRMED)[1]


def purge_by_the_byte():
    """Status is another, Remaining, the key with its length and the last signatures with their number are zeros, and all else stays."""
    for change in ({}, dict(curve=ED25519, wallet_public_key=b"\x33" * 32), dict(last_signatures=b""), dict(last_signatures=b"\x99" * 640)):
        for reusable, status in ((1, b"\1"), (0, b"\3")):
            before = encode(SIGNED._replace(reusable=reusable, **change))
            after = settle(before, PURGE, bytes(32), b"").image
            assert after == (before[:104] + status + before[105:107] + bytes(4) + before[111:115] + bytes(66)
                             + before[181:2833] + bytes(641)), (change, reusable)
            assert is_card(after), (change, reusable)


def purge_leaves():
    """What could be read before the purge, but for the wallet, can be read after it."""
    for reusable, status in ((1, "01"), (0, "03")):
        card = purged(SIGNED._replace(reusable=reusable))
        assert tapped(card, "F2", "1020" + PIN1)[0] == CID_FIELD + "0201" + status + "0509736563703235366B31" + "630400000005" + "9000"
        assert tapped(card, "E1", ACCESS)[0] == CID_FIELD + "2A0141" + "2B0142" + "2C0400000003" + "2D0400000004" + "9000"
        assert tapped(card, "F7", ACCESS)[0] == CID_FIELD + "320143" + "3340" + "55" * 64 + "350400000009" + "9000"


def repeat_after_a_purge():
    for held in (b"", HELD, b"\x99" * 640):
        card = SIGNED._replace(last_signatures=held)
        for dead in (purged(card), purged(card._replace(reusable=0))):
            refused_by(9, 0x6985, dead, REPEAT)


def repeat_on_a_new_wallet():
    """Refused until the wallet has signed; then its own, and not those of the wallet before."""
    assert tapped(SIGNED, "FB", CONFIRMED) == (REPEATED, SIGNED)
    new = tapped(purged(SIGNED), "F8", CONFIRMED, KEY)[1]
    assert (new.wallet_number, new.remaining, new.signed_hashes, new.last_signatures) == (2, 7, 5, b"")
    refused_by(12, 0x6985, new, REPEAT)
    own = CID_FIELD + "6140" + "77" * 64 + "620400000006" + "630400000006" + "9000"
    response, card = tapped(new, "FB", CONFIRMED + hashes(1), "77" * 64)
    assert response == own and tapped(card, "FB", CONFIRMED) == (own, card)


def a_purge_that_is_none():
    """Prohibited, without PIN2, or given an answer that nobody asked for: the repeat gives what it gave."""
    prohibited = SIGNED._replace(purge_prohibited=1)
    refused_by(12, 0x6985, prohibited, PURGE)
    refused_by(10, 0x6A86, SIGNED, request("FC", ACCESS))
    assert settle(encode(SIGNED), PURGE, bytes(32), b"\0") == (4, 0, 0, b"", None)
    for card in (prohibited, SIGNED):
        assert tapped(card, "FB", CONFIRMED)[0] == REPEATED


def signatures_want_a_wallet():
    """Whatever is asked of such an image, it is no card, signatures of zeros among them."""
    without = dict(status=EMPTY, remaining=0, wallet_public_key=b"")
    cards = (FRESH, FRESH._replace(activated=0), FRESH._replace(reusable=0), SIGNED._replace(**without, last_signatures=b""),
             SIGNED._replace(**{**without, "status": PURGED, "reusable": 0, "last_signatures": b""}))
    for card in cards:
        assert is_card(encode(card)), card
        for held in (b"\0" * 64, b"\x99" * 64, b"\x99" * 640):
            image = encode(card._replace(last_signatures=held))
            for sent in (b"", REPEAT, PURGE, request("F2", "1020" + PIN1)):
                assert ask(image, sent, bytes(32)) == (1, 0, 0, b""), card
                assert settle(image, sent, bytes(32), b"") == (1, 0, 0, b"", None), card


def signatures_of_a_wallet():
    """None to ten of them, Remaining at Max or not; eleven have no room."""
    for card in (WITH_WALLET, SIGNED):
        for count in range(11):
            assert is_card(encode(card._replace(last_signatures=b"\x99" * 64 * count))), count
        image = encode(card._replace(last_signatures=b"\x99" * 640))
        assert not is_card(image[:2833] + b"\x0b" + image[2834:])


TESTS = (
    purge_by_the_byte, purge_leaves, repeat_after_a_purge, repeat_on_a_new_wallet, a_purge_that_is_none, signatures_want_a_wallet,
    signatures_of_a_wallet,
)

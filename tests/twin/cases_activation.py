"""Cases for cards that go by post: ACTIVATE_CARD on cards that wait for it and on others, the card until then, and the card after.

What each tap must come to stands here by itself, so that the twin is held to it too.
"""

from itertools import product

from twin import card as twin
from twin.bench import (
    ACCESS, ACTIVATE_CARD, CHECK_WALLET, CID, CONFIRM, CREATE_WALLET, CURVES, CVC, DEFAULT_PIN1, DRAW, NAMES, OWN_FIELDS, PIN1, PIN2,
    PURGE_WALLET, READ_CARD, READ_ISSUER_DATA, READ_USER_DATA, SEED, SET_PIN, SIGN, STATUSES, VALIDATE_CARD, VERIFY_CARD,
    NO_SEED, WRITE_ISSUER_DATA, WRITE_USER_DATA, confirmation, codes, fresh, full, hashes, off_by_last, plain, request, some, without,
)
from twin.cases_handover import came_to, is_no_card, waited
from twin.image import CURVE_NAME, ED25519, EMPTY, Card, decode, encode
from twin.request import field

DONE, NO_PIN1, NO_CID, NO_FIELDS, UNSIGNED = (0x9000, 0), (0x6A86, 6), (0x6A86, 7), (0x6A86, 11), (0x6286, 13)
NOT_ACTIVATED, ACTIVATED_ALREADY = (0x6985, 8), (0x6985, 12)
KEEP, RESET = (request(ACTIVATE_CARD, *confirmation(reset)) for reset in (0, 1))
READ = plain(READ_CARD, (0x10, PIN1))


def under(pin1: bytes, ins: int, *fields) -> bytes:
    return plain(ins, (0x10, pin1), (0x01, CID), *fields)


def usual_under(pin1: bytes, ins: int) -> bytes:
    return under(pin1, ins, *codes(ins), *OWN_FIELDS[ins])


def told_before(card: Card) -> bytes:
    """What READ_CARD answers until activation."""
    return field(0x01, CID) + b"\x02\x01\x01" + b"\x3a\x01\x00" + field(0x3B, card.activation_seed) + b"\x90\x00"


def told_after(card: Card) -> bytes:
    return (field(0x01, CID) + b"\x02\x01\x01" + field(0x05, CURVE_NAME[card.curve])
            + field(0x63, card.signed_hashes.to_bytes(4, "big")) + b"\x90\x00")


def activates(script, card: Card, reset: int) -> bytes:
    """READ_CARD, ACTIVATE_CARD, READ_CARD, on a card that waits for it. Returns the PIN1 that is in force then."""
    script.use(card)
    assert came_to(script, plain(READ_CARD, (0x10, card.pin1)), DONE).response == told_before(card)
    pin1 = DEFAULT_PIN1 if reset else card.pin1
    settled = came_to(script, under(card.pin1, ACTIVATE_CARD, *confirmation(reset)), DONE)
    assert settled.response == told_after(card) and decode(settled.image) == card._replace(activated=1, pin1=pin1), card
    assert came_to(script, plain(READ_CARD, (0x10, pin1)), DONE).response == told_after(card)
    return pin1


# ---------------------------------------------------------------- on which cards


def waiting(script):
    """Both curves, with and without replay protection and a PIN1 that SET_PIN may change, PIN1 kept and reset."""
    for curve, replay, may_change, reset in product(CURVES, (1, 0), (1, 0), (0, 1)):
        script.say(f"{CURVES[curve]}, replay protection {replay}, setpin1 {may_change}, Reset_PIN1 {reset}")
        activates(script, fresh(curve, activated=0, replay_protection=replay, pin1_may_change=may_change), reset)


def waiting_others(script):
    """A PIN1 that is the default already, cards that hold something everywhere, seeds of any bytes."""
    cards = {
        "the default PIN1": fresh(pin1=DEFAULT_PIN1), "the default PIN1 as PIN2": fresh(pin2=DEFAULT_PIN1),
        "all held, CVC used": full(EMPTY, cvc_used=1), "all held, not reusable, ed25519": full(EMPTY, ED25519, reusable=0),
        "a seed of zeros": fresh(activation_seed=bytes(16)), "a seed of FF": fresh(ED25519, activation_seed=b"\xff" * 16),
        "a seed that is PIN1's front": fresh(activation_seed=PIN1[:16]),
    }
    for words, reset in product(cards, (0, 1)):
        script.say(f"{words}, Reset_PIN1 {reset}")
        activates(script, cards[words]._replace(activated=0), reset)


def activated_already(script):
    """In every Status by check 12, but with fields that do not fit by check 11."""
    for curve, status in product(CURVES, STATUSES):
        script.say(f"{CURVES[curve]}, {STATUSES[status]}, activated")
        script.use(full(status, curve))
        for sent, expected in ((KEEP, ACTIVATED_ALREADY), (RESET, ACTIVATED_ALREADY), (request(ACTIVATE_CARD), NO_FIELDS)):
            came_to(script, sent, expected)


def again(script):
    """The same request a second time: its PIN1 is no more, which costs a second, or the card is activated."""
    for reset in (0, 1):
        script.say(f"twice, Reset_PIN1 {reset}")
        pin1 = activates(script, fresh(activated=0), reset)
        came_to(script, RESET if reset else KEEP, NO_PIN1 if reset else ACTIVATED_ALREADY)
        waited(script, under(pin1, ACTIVATE_CARD, *confirmation(1)), reset, ACTIVATED_ALREADY)


# ---------------------------------------------------------------- its fields


def signature(length: int) -> tuple:
    return 0x34, some(length, 47)


GOOD = (0x36, b"\1"), signature(64)
UNFIT = {
    "Reset_PIN1 absent": GOOD[1:], "Activation_Signature absent": GOOD[:1], "both absent": (),
    **{f"Reset_PIN1 of {len(value)} bytes, {value.hex() or 'none'}": ((0x36, value), GOOD[1])
       for value in (b"", b"\0\0", b"\0\1", b"\1\0", b"\1\1", b"\2", b"\x80", b"\xff", b"0", b"1")},
    **{f"Activation_Signature of {length}": (GOOD[0], signature(length)) for length in (0, 1, 32, 63, 65, 128)},
    "both empty": ((0x36, b""), (0x34, b"")), "each with the other's value": ((0x36, GOOD[1][1]), (0x34, b"\1")),
    "the signature as tag 33": (GOOD[0], (0x33, GOOD[1][1])), "the signature alone, twice": GOOD[1:] + GOOD[1:],
}


def unfit_fields(script):
    """On a card that waits and on one that is activated: 6A86 by check 11, but for a field twice, which is check 5's."""
    for words, fields in UNFIT.items():
        script.say(words)
        for activated in (0, 1):
            script.use(fresh(activated=activated))
            came_to(script, request(ACTIVATE_CARD, *fields), (0x6A86, 5 if "twice" in words else 11))


def fields_not_read(script):
    """PIN2 and CVC wrong, short or twice, other tags, another order: no matter."""
    script.say("codes wrong and twice, other tags, another order")
    rows = (
        ((0x11, off_by_last(PIN2)),), ((0x11, b""), (0x11, PIN2)), ((0x19, b"999"),), ((0x19, CVC), (0x19, b"")),
        ((0x3A, b"\1"), (0x3B, bytes(16)), (0x3B, SEED)), ((0x12, PIN2), (0x33, some(64))),
    )
    for fields in rows:
        script.use(fresh(activated=0, cvc_used=1))
        came_to(script, request(ACTIVATE_CARD, *GOOD, *fields), DONE)
    script.use(fresh(activated=0))
    came_to(script, plain(ACTIVATE_CARD, *reversed((*ACCESS, *GOOD))), DONE)


# ---------------------------------------------------------------- the issuer's word


def answers(script):
    """Yes, no, and nothing else; until 9000 the card is as it was, and the exchange may be begun again at any point."""
    for curve, sent in product(CURVES, (KEEP, RESET)):
        script.say(f"{CURVES[curve]}, Reset_PIN1 {int(sent == RESET)}: answers that fit nothing, no, no again, yes")
        card = fresh(curve, activated=0)
        script.use(card)
        for given in (b"", b"\0\0", b"\1\1", b"\1\0", b"\2", b"\x80", b"\xff", some(64)):
            assert script.settle(sent, given).number == 4, given
        for _ in range(2):
            asked = script.ask(sent)
            assert (asked.reason, asked.questions[:6]) == (0, bytes([6, 0, 0, curve, 0, 89])), asked
            settled = script.settle(sent, b"\0")
            assert (settled.word, settled.reason) == UNSIGNED and settled.image == encode(card)
            assert came_to(script, READ, DONE).response == told_before(card)
        assert script.settle(sent, b"\1").response == told_after(card)


def signed_bytes(script):
    """The question's message: the signature, the CID, the seed, the byte of Reset_PIN1; the draw is no part of anything."""
    script.say("what is asked, with other seeds, CIDs and draws")
    for seed, cid, draw, reset in product((SEED, bytes(16), b"\xff" * 16), (CID, some(8, 48)), (DRAW, bytes(32)), (0, 1)):
        script.use(fresh(activated=0, activation_seed=seed, cid=cid))
        sent = plain(ACTIVATE_CARD, (0x10, PIN1), (0x01, cid), *confirmation(reset))
        asked = script.ask(sent, draw)
        assert asked.questions == bytes.fromhex("060000010059") + some(64, 46) + cid + seed + bytes([reset]), asked


# ---------------------------------------------------------------- before and after


def until_then(script):
    """Every other command, with the CID and without; READ_CARD and READ_ISSUER_DATA are carried out."""
    card = fresh(activated=0)
    script.say("every other command on a card that waits")
    script.use(card)
    for ins in NAMES:
        if ins not in (READ_CARD, READ_ISSUER_DATA, ACTIVATE_CARD):
            came_to(script, usual_under(PIN1, ins), NOT_ACTIVATED)
        if ins != READ_CARD:
            came_to(script, plain(ins, (0x10, PIN1), *codes(ins), *OWN_FIELDS[ins]), NO_CID)
    came_to(script, usual_under(PIN1, READ_ISSUER_DATA), DONE)
    assert came_to(script, READ, DONE).response == told_before(card)
    assert script.image == encode(card)


LIFE = (READ_CARD, READ_USER_DATA, READ_ISSUER_DATA, VERIFY_CARD, VALIDATE_CARD, WRITE_USER_DATA, WRITE_ISSUER_DATA, CREATE_WALLET,
        CHECK_WALLET, SIGN, PURGE_WALLET)


def from_then_on(script):
    """Every command on the card after, as on one that was activated from the start: the same answers, the same image."""
    for curve, reset in product(CURVES, (0, 1)):
        script.say(f"{CURVES[curve]}, Reset_PIN1 {reset}: every command")
        pin1 = activates(script, full(EMPTY, curve, activated=0), reset)
        image = encode(full(EMPTY, curve, pin1=pin1))
        for ins in LIFE:
            asked = script.ask(usual_under(pin1, ins))
            given = script.provider.answers(asked.questions)
            settled = script.settle(usual_under(pin1, ins), given)
            assert settled.word == 0x9000 and settled == twin.settle(image, usual_under(pin1, ins), DRAW, given), NAMES[ins]
            image = settled.image


def codes_after(script):
    """A SIGN under the reset PIN1 and under the old one; SET_PIN from the reset PIN1 on, where the card allows it."""
    for may_change in (1, 0):
        script.say(f"codes after a reset, setpin1 {may_change}")
        pin1 = activates(script, fresh(activated=0, pin1_may_change=may_change), 1)
        came_to(script, under(pin1, CREATE_WALLET, *CONFIRM), DONE)
        came_to(script, under(PIN1, SIGN, *CONFIRM, *hashes(1)), NO_PIN1)
        waited(script, under(pin1, SIGN, *CONFIRM, *hashes(1)), 1, DONE)
        back = under(pin1, SET_PIN, *CONFIRM, (0x12, PIN1), (0x13, PIN2))
        came_to(script, back, (0x9001, 0) if may_change else (0x6985, 12))
        came_to(script, under(PIN1, SIGN, *CONFIRM, *hashes(2)), DONE if may_change else NO_PIN1)


# ---------------------------------------------------------------- images of before


def of_before(script):
    """Without the seed an image has 2,429 bytes, and is no card."""
    for words, card in (("activated", fresh()), ("not activated", fresh(activated=0))):
        image = without(NO_SEED, encode(card))
        assert len(image) == 2429
        is_no_card(script, f"without a seed, {words}", image, READ, KEEP, b"")


GROUPS = (
    ("activation: cards that wait for it", waiting),
    ("activation: other cards that wait for it", waiting_others),
    ("activation: cards that are activated", activated_already),
    ("activation: the same request again", again),
    ("activation: fields that do not fit", unfit_fields),
    ("activation: fields that are not read", fields_not_read),
    ("activation: the issuer's word", answers),
    ("activation: what is asked", signed_bytes),
    ("activation: until then", until_then),
    ("activation: from then on", from_then_on),
    ("activation: codes after a reset", codes_after),
    ("activation: images of before", of_before),
)

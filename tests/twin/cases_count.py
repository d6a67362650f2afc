"""Cases for the count of wrong codes: which codes sent are counted and which are not, up to where, and what clears the count.

What each call must come to, and what is counted then, stands here by itself, so that the twin is held to it too.
"""

from itertools import product

from twin.bench import (
    CID, CREATE_WALLET, CVC, DEFAULT_PIN1, DEFAULT_PIN2, NAMES, OWN_FIELDS, PIN1, PIN2, READ_CARD, READ_USER_DATA, SET_PIN, SIGN,
    VALIDATE_CARD, WRITE_USER_DATA, codes, confirmed, fresh, hashes, loaded, off_by_last, pause, plain, ready, request,
    some,
)
from twin.cases_checks import can_fail, card_failing, request_failing
from twin.cases_delay import READ, VALIDATE, holding, nothing_waits, waiting
from twin.cases_handover import DONE, PAUSED, came_to, waited

NO_PIN1, NO_CID, NO_CODE = (0x6A86, 6), (0x6A86, 7), (0x6A86, 10)
# How a code may be sent, and whether this counts.
COUNTS = {
    "right": 0, "absent": 0, "default": 0, "empty": 1, "without its last byte": 1, "with a byte more": 1, "wrong in its last byte": 1,
}


def sendings(tag: int, right: bytes, default=None) -> dict:
    """The fields in which a code is sent, by the words above. The CVC has no default."""
    sent = {
        "right": right, "empty": b"", "without its last byte": right[:-1], "with a byte more": right + b"\0",
        "wrong in its last byte": off_by_last(right), "default": default,
    }
    return {"absent": (), **{words: ((tag, value),) for words, value in sent.items() if value is not None}}


PIN1S, PIN2S, CVCS = sendings(0x10, PIN1, DEFAULT_PIN1), sendings(0x11, PIN2, DEFAULT_PIN2), sendings(0x19, CVC)
NEIGHBOURS = ("right", "wrong in its last byte")


def counted(script) -> int:
    """Of a card that holds no request."""
    count, left, held = waiting(script)
    assert (left, held) == (0, b"")
    return count


def create(pin1: str, pin2: str, cvc: str) -> bytes:
    return plain(CREATE_WALLET, *PIN1S[pin1], (0x01, CID), *PIN2S[pin2], *CVCS[cvc])


# ---------------------------------------------------------------- one code, and its neighbours


def pin1_sent(script):
    """Check 6 speaks of PIN1 alone, whatever PIN2 and CVC are."""
    for pin1, pin2, cvc in product(PIN1S, NEIGHBOURS, NEIGHBOURS):
        if pin1 != "right":
            script.say(f"PIN1 {pin1}; PIN2 {pin2}, CVC {cvc}")
            script.use(fresh(cvc_used=1, wrong_codes=1))
            came_to(script, create(pin1, pin2, cvc), NO_PIN1)
            assert counted(script) == 1 + COUNTS[pin1], pin1


def pin2_and_cvc_sent(script):
    """Check 10 speaks of PIN2, and of the CVC only where PIN2 is right."""
    for pin2, cvc in product(PIN2S, CVCS):
        script.say(f"PIN2 {pin2}, CVC {cvc}")
        script.use(fresh(cvc_used=1))
        came_to(script, create("right", pin2, cvc), DONE if pin2 == cvc == "right" else NO_CODE)
        assert counted(script) == (COUNTS[cvc] if pin2 == "right" else COUNTS[pin2]), (pin2, cvc)


def almost_default(script):
    """The default of the other code counts, and so does a default that is cut, longer, a bit off, or not yet hashed."""
    rows = {0x10: (DEFAULT_PIN1, DEFAULT_PIN2, PIN2, b"000000"), 0x11: (DEFAULT_PIN2, DEFAULT_PIN1, PIN1, b"000")}
    for tag, (default, *others) in rows.items():
        others += default[:31], default + b"\0", default + default, b"\0" + default[1:], off_by_last(default), bytes(32)
        for value in others:
            script.say(f"tag {tag:02X}: {value.hex().upper() or 'empty'}")
            script.use(fresh())
            sent = plain(VALIDATE_CARD, (0x10, value), (0x01, CID)) if tag == 0x10 else request(VALIDATE_CARD, (tag, value))
            came_to(script, sent, NO_PIN1 if tag == 0x10 else NO_CODE)
            assert counted(script) == 1, value.hex()
    for cvc in (b"000", b"\0\0\0", DEFAULT_PIN2, DEFAULT_PIN1):
        script.say(f"CVC {cvc.hex().upper()}, which has no default")
        script.use(fresh(cvc_used=1))
        came_to(script, confirmed(CREATE_WALLET, (0x19, cvc)), NO_CODE)
        assert counted(script) == 1


def default_is_right(script):
    """On a card that has the default codes they are taken; where they are exchanged, each is wrong, and counts."""
    script.say("a card with the default codes, and one with the two exchanged")
    sent = plain(VALIDATE_CARD, (0x10, DEFAULT_PIN1), (0x01, CID), (0x11, DEFAULT_PIN2))
    script.use(fresh(pin1=DEFAULT_PIN1, pin2=DEFAULT_PIN2))
    came_to(script, sent, DONE)
    script.use(fresh(pin1=DEFAULT_PIN2, pin2=DEFAULT_PIN1))
    came_to(script, sent, NO_PIN1)
    assert counted(script) == 0
    came_to(script, plain(VALIDATE_CARD, (0x10, DEFAULT_PIN2), (0x01, CID), (0x11, DEFAULT_PIN2)), NO_CODE)
    assert counted(script) == 0
    came_to(script, plain(VALIDATE_CARD, (0x10, DEFAULT_PIN2), (0x01, CID), (0x11, PIN2)), NO_CODE)
    assert counted(script) == 1


# ---------------------------------------------------------------- refused over something else


def other_refusals(script):
    """A wrong PIN1 behind checks 1 to 5, a wrong PIN2 behind checks 1 to 9: nothing is counted over it."""
    for ins in (VALIDATE_CARD, SIGN):
        for check, wrong in ((check, wrong) for check in can_fail(ins) for wrong in (6, 10) if check < wrong and check != 6):
            script.say(f"{NAMES[ins]} refused by check {check}, with a wrong {'PIN1' if wrong == 6 else 'PIN2'}")
            script.use(card_failing(ins, {check})._replace(wrong_codes=4))
            assert script.tap(request_failing(ins, {check, wrong})).reason == check
            assert counted(script) == 4
    script.say("PIN1 wrong and twice")
    came_to(script, plain(READ_CARD, (0x10, PIN2), (0x10, PIN2)), (0x6A86, 5))
    assert counted(script) == 4


def cids(script):
    """No CID counts."""
    for words, cid in (("absent", ()), ("empty", ((0x01, b""),)), ("short", ((0x01, CID[:7]),)), ("wrong", ((0x01, off_by_last(CID)),))):
        for pin2 in NEIGHBOURS:
            script.say(f"CID {words}; PIN2 {pin2}")
            script.use(fresh(wrong_codes=3))
            came_to(script, plain(VALIDATE_CARD, (0x10, PIN1), *cid, *PIN2S[pin2]), NO_CID)
            assert counted(script) == 3


def not_needed(script):
    """A code that the command, or this card, does not need is not looked at: empty, wrong or short, the command is done."""
    for ins, name in NAMES.items():
        own = [one for one in OWN_FIELDS[ins] if one[0] not in (0x2B, 0x2D)]
        for used in (0, 1):
            needed = dict(codes(ins)) if ins != WRITE_USER_DATA else {}
            if not used:
                needed.pop(0x19, None)
            spare = [tag for tag in (0x11, 0x19) if tag not in needed]
            for value in (b"", off_by_last(PIN2)) if spare else ():
                script.say(f"{name}, CVC used {used}, not needed: {' '.join(f'{tag:02X}' for tag in spare)}, of {len(value)} bytes")
                script.use(ready(ins, cvc_used=used))
                sent = request(ins, *needed.items(), *((tag, value) for tag in spare), *own)
                assert 0x9000 <= script.tap(sent).word <= 0x9003, name
                nothing_waits(script)


# ---------------------------------------------------------------- up to 60, and back to none


def up_to_60(script):
    """One by one, and at 60 it stays; then a command that needs PIN1 alone waits 60 seconds."""
    script.say("a wrong PIN1 61 times")
    script.use(fresh())
    for times in range(1, 62):
        assert script.settle(plain(READ_CARD, (0x10, PIN2)))[1:3] == (6, 0x6A86)
        assert counted(script) == min(times, 60)
    assert came_to(script, READ, PAUSED).response == pause(60)
    asking = fresh(cvc_used=1)
    for words, sent, expected in (
        ("PIN1", create("wrong in its last byte", "right", "right"), NO_PIN1), ("PIN2", create("right", "empty", "right"), NO_CODE),
        ("CVC", create("right", "right", "with a byte more"), NO_CODE),
    ):
        script.say(f"58 counted, a wrong {words} three times")
        script.use(asking._replace(wrong_codes=58))
        for count in (59, 60, 60):
            came_to(script, sent, expected)
            assert counted(script) == count
    for count in (0, 1, 59, 60):
        script.say(f"{count} counted, the default PIN1 and the default PIN2, which are wrong and free; then a wrong PIN2")
        script.use(asking._replace(wrong_codes=count))
        for sent in (create("default", "right", "right"), create("right", "default", "right")):
            assert script.tap(sent).word == 0x6A86
            assert counted(script) == count
        came_to(script, create("right", "without its last byte", "right"), NO_CODE)
        assert counted(script) == min(count + 1, 60)


def in_a_wait(script):
    """A wrong code while a request is held drops it and lengthens its wait; a default one only drops it. Neither waits itself."""
    wrong, default = request(VALIDATE_CARD, (0x11, PIN1)), request(VALIDATE_CARD, (0x11, DEFAULT_PIN2))
    for words, sent, more in (("wrong", wrong, 1), ("default", default, 0)):
        script.say(f"held with a second left, then a {words} PIN2: from the beginning")
        script.use(holding(1, wrong_codes=2))
        came_to(script, sent, NO_CODE)
        assert counted(script) == 2 + more
        waited(script, VALIDATE, 5 + more, DONE)
    script.say("two wrong PIN2, and READ_CARD waits; after it the count is gone")
    script.use(fresh())
    for _ in range(2):
        came_to(script, wrong, NO_CODE)
    waited(script, READ, 2, DONE)
    nothing_waits(script)
    came_to(script, VALIDATE, DONE)


def new_codes(script):
    """Once SET_PIN has waited, the old codes are wrong ones; new codes that are refused are none."""
    script.say("SET_PIN after a wait, then the old codes, then the new ones")
    new1, new2 = some(32, 81), some(32, 82)
    script.use(loaded(pause=1))
    waited(script, confirmed(SET_PIN, (0x12, new1), (0x13, new2)), 1, (0x9003, 0))
    came_to(script, request(SIGN, (0x11, PIN2), *hashes(1)), NO_PIN1)
    came_to(script, plain(SIGN, (0x10, new1), (0x01, CID), (0x11, PIN2), *hashes(1)), NO_CODE)
    assert counted(script) == 2
    waited(script, plain(SIGN, (0x10, new1), (0x01, CID), (0x11, new2), *hashes(1)), 3, DONE)
    script.say("new codes that may not be set, or do not fit, are not counted")
    script.use(fresh(pin1_may_change=0))
    came_to(script, confirmed(SET_PIN, (0x12, new1), (0x13, PIN2)), (0x6985, 12))
    came_to(script, confirmed(SET_PIN, (0x12, b""), (0x13, PIN2)), (0x6A86, 11))
    nothing_waits(script)
    came_to(script, plain(READ_USER_DATA, (0x10, PIN1), (0x01, CID)), DONE)


GROUPS = (
    ("wrong codes: PIN1, with right and wrong neighbours", pin1_sent),
    ("wrong codes: PIN2 and CVC", pin2_and_cvc_sent),
    ("wrong codes: almost the default", almost_default),
    ("wrong codes: cards with the default codes", default_is_right),
    ("wrong codes: refused over something else", other_refusals),
    ("wrong codes: the CID", cids),
    ("wrong codes: not needed", not_needed),
    ("wrong codes: up to 60", up_to_60),
    ("wrong codes: in a wait", in_a_wait),
    ("wrong codes: new codes", new_codes),
)

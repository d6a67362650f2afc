"""Cases for the order of the checks: each check of each command failing alone, with the next, and with all after it.

A card and a request are built with a chosen set of checks failing. Refused commands are settled with answers that fit
nothing, so that a card which looks at them too early is seen.
"""

from twin.bench import (
    ACTIVATE_CARD, CHECK_WALLET, CID, CREATE_WALLET, CVC, NAMES, OWN_FIELDS, PIN1, PIN2, PURGE_WALLET, READ_CARD,
    READ_ISSUER_DATA, SET_PIN, SIGN, VALIDATE_CARD, VERIFY_CARD, WITH_CVC, WITH_PIN2, WRITE_ISSUER_DATA, WRITE_USER_DATA,
    confirmation, counter, hashes, header, in_status, join, off_by_last, ready, sized, some,
)
from twin.image import EMPTY, LOADED, PURGED, encode, is_card

# What makes check 9, 11 or 12 of a command fail.
FORBIDDEN_STATUS = {
    CREATE_WALLET: LOADED,
    CHECK_WALLET: EMPTY,
    SIGN: EMPTY,
    PURGE_WALLET: EMPTY,
    SET_PIN: PURGED,
    VALIDATE_CARD: PURGED,
    WRITE_USER_DATA: PURGED,
    WRITE_ISSUER_DATA: PURGED,
}
UNFIT_FIELDS = {
    CHECK_WALLET: ((0x16, some(15)),),
    SET_PIN: ((0x12, some(31)), (0x13, some(32))),
    SIGN: (hashes(1)[0], (0x51, b"\x1f")),
    VERIFY_CARD: ((0x16, some(17)),),
    WRITE_USER_DATA: ((0x2B, b""),),
    WRITE_ISSUER_DATA: ((0x32, b"data"), (0x33, some(63)), (0x35, counter(10))),
    READ_ISSUER_DATA: ((0x23, b"\1"),),
    ACTIVATE_CARD: confirmation(reset=2),
}
UNMET_CONDITION = {
    CREATE_WALLET: dict(wallet_number=65_535),
    SET_PIN: dict(pin2_may_change=0),
    SIGN: dict(remaining=0),
    VALIDATE_CARD: dict(card_validation_counter=65_535),
    PURGE_WALLET: dict(purge_prohibited=1),
    WRITE_ISSUER_DATA: dict(issuer_data_counter=10),
    ACTIVATE_CARD: dict(activated=1),
}


def can_fail(ins: int) -> list:
    """The checks that this command can fail at all."""
    cannot = set()
    if ins == READ_CARD:
        cannot |= {7}
    if ins in (READ_CARD, READ_ISSUER_DATA, ACTIVATE_CARD):
        cannot |= {8}
    if ins not in FORBIDDEN_STATUS:
        cannot |= {9}
    if ins not in WITH_PIN2:
        cannot |= {10}
    if ins not in UNFIT_FIELDS:
        cannot |= {11}
    if ins not in UNMET_CONDITION:
        cannot |= {12}
    return [check for check in range(1, 13) if check not in cannot]


def card_failing(ins: int, failing: set):
    """A card on which these of the checks 8, 9 and 12 fail, or None where there is no such card."""
    doing = ready(ins)
    status, activated = (EMPTY, 0) if 8 in failing else (doing.status, doing.activated)
    if 9 in failing:
        status = FORBIDDEN_STATUS[ins]
    values = dict(cvc_used=1, activated=activated) | (UNMET_CONDITION[ins] if 12 in failing else {})
    card = in_status(status, **values)
    return card if is_card(encode(card)) else None


def request_failing(ins: int, failing: set, wrong_code: int = 0x11, p: tuple = (1, 0)) -> bytes:
    """The usual request with these of the checks 1 to 7, 10 and 11 failing."""
    own = UNFIT_FIELDS[ins] if 11 in failing else OWN_FIELDS[ins]
    fields = [(0x10, PIN1), (0x01, CID), (0x11, PIN2), (0x19, CVC)]
    wrong = {0x10: 6 in failing, 0x01: 7 in failing, wrong_code: 10 in failing}
    fields = [(tag, off_by_last(value) if wrong.get(tag) else value) for tag, value in fields]
    payload = join(fields + list(own)) + (b"\x10" if 5 in failing else b"")
    p1, p2 = p if 4 in failing else (0, 0)
    head = header(ins ^ 0x40 if 3 in failing else ins, 0x80 if 2 in failing else 0, p1, p2)
    return head + sized(payload) + (b"\0" if 1 in failing else b"")


def broken(script, ins: int, failing: list, **how) -> bool:
    """A case with these checks failing, unless there is no such card. The first of them must decide."""
    card = card_failing(ins, set(failing))
    if card is None:
        return False
    words = " and ".join(map(str, failing)) if failing else "none"
    settled = script.case(f"{NAMES[ins]}, failing: {words}", card, request_failing(ins, set(failing), **how))
    assert settled.reason == min(failing, default=0), (NAMES[ins], failing, settled)
    return True


def each_alone(script):
    for ins in NAMES:
        for check in can_fail(ins):
            broken(script, ins, [check])


def each_with_the_next(script):
    """Where no card fails both, the one after the next."""
    for ins in NAMES:
        checks = can_fail(ins)
        for place, check in enumerate(checks):
            for later in checks[place + 1 :]:
                if broken(script, ins, [check, later]):
                    break


def each_with_all_after_it(script):
    """All checks failing, then one mended after the other, from the first on."""
    for ins in NAMES:
        checks = can_fail(ins)
        for place in range(len(checks) + 1):
            failing = checks[place:]
            if not broken(script, ins, failing):
                broken(script, ins, [check for check in failing if check not in (9, 12)])


def need_of_encryption(script):
    """P2 01 and 02 have a word of their own, so the order of 4 against 5 to 7 shows."""
    for ins in NAMES:
        for p in ((0, 1), (1, 2)):
            broken(script, ins, [4, 5, 6], p=p)
    for failing in ([2, 4], [3, 4], [1, 4]):
        broken(script, SIGN, failing, p=(0, 1))


def codes_before_fields(script):
    """PIN2, then CVC, then the fields, then the conditions: a wrong code hides what comes later."""
    for ins in WITH_CVC:
        broken(script, ins, [9, 10], wrong_code=0x19)
        broken(script, ins, [10], wrong_code=0x19)
        for later in (11, 12):
            if later in can_fail(ins):
                broken(script, ins, [10, later], wrong_code=0x19)


GROUPS = (
    ("each check failing alone", each_alone),
    ("each check failing with the next one", each_with_the_next),
    ("each check failing with all after it", each_with_all_after_it),
    ("encryption named in P2", need_of_encryption),
    ("a wrong CVC and what comes after it", codes_before_fields),
)

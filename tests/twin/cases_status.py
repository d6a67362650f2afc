"""Cases for where each command is allowed and which codes it asks, for SET_PIN, attestation, and the drill sheet."""

from twin.bench import (
    ACCESS, CHECK_WALLET, CID, CONFIRM, CONFIRM_CVC, CREATE_WALLET, CURVES, CVC, NAMES, OWN_FIELDS, PIN1, PIN2,
    READ_CARD, READ_ISSUER_DATA, READ_USER_DATA, SET_PIN, SIGN, STATUSES, VALIDATE_CARD, VERIFY_CARD, WITH_CVC,
    WITH_PIN2, WRITE_ISSUER_DATA, confirmed, fresh, full, hashes, header, issuer_data, loaded, off_by_last, plain,
    purged, ready, request, sign, some, usual,
)
from twin.image import ED25519, EMPTY, TOP_32

# ---------------------------------------------------------------- curve, status, activation


def everywhere(script):
    """Every command on every curve and in every status, on full cards."""
    for curve, curve_name in CURVES.items():
        for status, status_name in STATUSES.items():
            for ins, name in NAMES.items():
                script.case(f"{name}, {curve_name}, {status_name}", full(status, curve), usual(ins))


def fresh_cards(script):
    for curve, name in CURVES.items():
        for ins in (READ_CARD, READ_USER_DATA, READ_ISSUER_DATA, VERIFY_CARD, VALIDATE_CARD):
            script.case(f"{NAMES[ins]}, fresh, {name}", fresh(curve), usual(ins))


def not_activated(script):
    """Without CID or PIN1, and with data held. Which commands are carried out stands in cases_activation.py."""
    script.use(fresh(activated=0))
    for ins in (READ_CARD, READ_ISSUER_DATA, SIGN, CREATE_WALLET):
        script.case(f"{NAMES[ins]}, not activated, without CID", None, plain(ins, ACCESS[0]))
        script.case(f"{NAMES[ins]}, not activated, without PIN1", None, plain(ins, ACCESS[1]))
    held = full(EMPTY, ED25519, activated=0)
    script.case("READ_ISSUER_DATA, not activated, data held", held, usual(READ_ISSUER_DATA))
    script.case("the same, without replay protection", held._replace(replay_protection=0), usual(READ_ISSUER_DATA))
    script.case("the same, Mode 1", None, request(READ_ISSUER_DATA, (0x23, b"\1")))
    script.case("READ_CARD, not activated, hashes signed", held, usual(READ_CARD))


def asked_codes(script):
    """PIN2 and CVC are asked of some commands only, and CVC only where the card uses it."""
    for ins, name in NAMES.items():
        for used in (0, 1):
            card = ready(ins, make=full, cvc_used=used)
            own = OWN_FIELDS[ins]
            script.case(f"{name}, CVC used {used}, no code", card, request(ins, *own))
            script.case(f"{name}, CVC used {used}, PIN2 alone", card, request(ins, *CONFIRM, *own))
            if ins in WITH_PIN2:
                script.case(f"{name}, CVC used {used}, CVC alone", card, request(ins, (0x19, CVC), *own))
            if ins in WITH_CVC:
                script.case(f"{name}, CVC used {used}, wrong CVC", card, request(ins, *CONFIRM, (0x19, b"124"), *own))


def wrong_codes(script):
    pins = (("empty", b""), ("of 31 bytes", PIN2[:31]), ("of 33 bytes", PIN2 + b"\0"),
            ("wrong in the last byte", off_by_last(PIN2)), ("that is PIN1", PIN1))
    cvcs = (("empty", b""), ("of 2 bytes", CVC[:2]), ("of 4 bytes", CVC + b"4"), ("as numbers", b"\1\2\3"),
            ("wrong in the first byte", b"023"))
    script.use(loaded(cvc_used=1))
    for words, pin2 in pins:
        script.case(f"SIGN, PIN2 {words}", None, request(SIGN, (0x11, pin2), (0x19, CVC), *hashes(1)))
    for words, cvc in cvcs:
        script.case(f"SIGN, CVC {words}", None, request(SIGN, (0x11, PIN2), (0x19, cvc), *hashes(1)))
    script.case("a CVC that is no digits", loaded(cvc_used=1, cvc=b"\0\xffA"),
                confirmed(SIGN, (0x19, b"\0\xffA"), *hashes(1)))


# ---------------------------------------------------------------- codes, attestation


def set_pin(script):
    other1, other2 = some(32, 71), some(32, 72)
    news = (("same codes", PIN1, PIN2), ("PIN1 differs", other1, PIN2), ("PIN2 differs", PIN1, other2),
            ("both differ", other1, other2), ("the codes swapped", PIN2, PIN1),
            ("PIN1 differs in the last byte", off_by_last(PIN1), PIN2), ("PIN2 in the first", PIN1, b"\0" + PIN2[1:]))
    for may1 in (1, 0):
        for may2 in (1, 0):
            for words, new1, new2 in news:
                script.case(f"{words}; PIN1 may change {may1}, PIN2 {may2}",
                            fresh(pin1_may_change=may1, pin2_may_change=may2),
                            confirmed(SET_PIN, (0x12, new1), (0x13, new2)))
    rows = (("New_PIN1 absent", ((0x13, PIN2),)), ("New_PIN2 absent", ((0x12, PIN1),)), ("both absent", ()))
    for length in (0, 31, 33):
        rows += ((f"New_PIN1 of {length}", ((0x12, some(length)), (0x13, PIN2))),
                 (f"New_PIN2 of {length}", ((0x12, PIN1), (0x13, some(length)))))
    for words, fields in rows:
        for may in (1, 0):
            card = fresh(pin1_may_change=may, pin2_may_change=may)
            script.case(f"{words}; may change {may}", card, confirmed(SET_PIN, *fields))


def set_pin_in_force(script):
    new1, new2 = some(32, 73), some(32, 74)
    change = confirmed(SET_PIN, (0x12, new1), (0x13, new2))
    read = plain(READ_CARD, (0x10, new1))
    validate = plain(VALIDATE_CARD, (0x10, new1), (0x01, CID), (0x11, new2))
    back = plain(SET_PIN, (0x10, new1), (0x01, CID), (0x11, new2), (0x12, PIN1), (0x13, PIN2))
    script.case("old codes no longer, new codes from the next command on, a second later for each old one, and back", loaded(),
                change, change, usual(READ_CARD), *[read] * 3, usual(VALIDATE_CARD), *[validate] * 2, back, usual(VALIDATE_CARD))
    script.case("CVC asked", fresh(cvc_used=1), change, request(SET_PIN, *CONFIRM_CVC, (0x12, new1), (0x13, new2)))


def attestation(script):
    validate = confirmed(VALIDATE_CARD)
    for start in (0, 255, 65_533, 65_534, 65_535):
        script.case(f"VALIDATE_CARD at {start}", fresh(card_validation_counter=start), validate, validate)
    for card in (fresh(), fresh(wallet_number=7), loaded(ED25519, wallet_number=7), purged()):
        words = f"wallet number {card.wallet_number}, {STATUSES[card.status]}"
        script.case(f"VERIFY_CARD, {words}", card, usual(VERIFY_CARD))
        script.case(f"VALIDATE_CARD, {words}", card, validate)
    for length in (0, 15, 17):
        script.case(f"VERIFY_CARD, Challenge of {length}", fresh(), request(VERIFY_CARD, (0x16, some(length))))
    script.case("VERIFY_CARD, Challenge absent", fresh(), request(VERIFY_CARD))
    script.say("VERIFY_CARD and CHECK_WALLET with other draws: the salts are its halves")
    script.use(loaded())
    for draw in (bytes(32), b"\xff" * 32, some(32, 75)):
        script.tap(usual(VERIFY_CARD), draw)
        script.tap(usual(CHECK_WALLET), draw)


# ---------------------------------------------------------------- the drill sheet


def drill(script):
    access, read = ACCESS, header(READ_CARD)
    protected = fresh(issuer_data_counter=9)
    rows = (
        ("1: 1000 is an empty field", fresh(), request(READ_CARD, b"\x10\0")),
        ("2: 10FF0000 the same", fresh(), request(READ_CARD, b"\x10\xff\0\0")),
        ("3: 10FF is malformed", fresh(), request(READ_CARD, b"\x10\xff")),
        ("5: five bytes ending in Lc 00", fresh(), read + b"\0"),
        ("6: CLA 80 and INS 00", fresh(), plain(0x00, *access, cla=0x80)),
        ("7: P1 01 and P2 02", fresh(), plain(READ_CARD, *access, p1=1, p2=2)),
        ("8: stored counter 9, sent 9", protected, request(WRITE_ISSUER_DATA, *issuer_data(sent=9))),
        ("9: stored counter 9, sent 10", protected, request(WRITE_ISSUER_DATA, *issuer_data(sent=10))),
        ("10: five hashes at Remaining 1", loaded(remaining=1), sign(5)),
        ("11: six hashes at Signed_Hashes 4,294,967,290", loaded(signed_hashes=4_294_967_290), sign(6)),
        ("11: five hashes there", loaded(signed_hashes=4_294_967_290), sign(5)),
        ("12: a SIGN at User_Counter 4,294,967,295", loaded(user_counter=TOP_32), sign(1)),
    )
    for words, card, one in rows:
        script.case(words, card, one)


GROUPS = (
    ("every command in every status", everywhere),
    ("fresh cards", fresh_cards),
    ("not activated", not_activated),
    ("which codes are asked", asked_codes),
    ("wrong codes", wrong_codes),
    ("SET_PIN", set_pin),
    ("SET_PIN: when the codes are in force", set_pin_in_force),
    ("VERIFY_CARD and VALIDATE_CARD", attestation),
    ("the drill sheet (row 4 is no request)", drill),
)

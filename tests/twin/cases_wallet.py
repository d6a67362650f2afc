"""Cases for the life of a wallet: CREATE_WALLET, PURGE_WALLET, CHECK_WALLET, SIGN, and whole lives of cards."""

from twin.bench import (
    CHALLENGE, CHECK_WALLET, CONFIRM_CVC, CREATE_WALLET, CURVES, KEY_CHALLENGE, PURGE_WALLET, READ_CARD,
    READ_ISSUER_DATA, READ_USER_DATA, REPEAT, SIGN, VALIDATE_CARD, VERIFY_CARD, WRITE_ISSUER_DATA, WRITE_USER_DATA,
    confirmed, fresh, full, hashes, loaded, long_field, purged, request, sign, some, usual,
)
from twin.image import ED25519, LOADED, SECP256K1, TOP_32

# ---------------------------------------------------------------- the wallet


def create_wallet(script):
    create = confirmed(CREATE_WALLET)
    for number in (0, 1, 255, 256, 65_533, 65_534, 65_535):
        script.case(f"wallet number {number}", fresh(wallet_number=number), create, confirmed(PURGE_WALLET), create)
    for most in (1, 256, TOP_32):
        script.case(f"Max_Signatures {most}", fresh(ED25519, max_signatures=most), create, usual(READ_CARD))
    script.case("not reusable", fresh(reusable=0), create, create)
    script.case("manual's further fields are not read", fresh(),
                confirmed(CREATE_WALLET, (0x05, b"ed25519"), (0x0C, b"x"), (0x33, some(64))))


def purge_wallet(script):
    purge, create = confirmed(PURGE_WALLET), confirmed(CREATE_WALLET)
    for curve, name in CURVES.items():
        script.case(f"reusable, {name}: purge, create", full(LOADED, curve, wallet_number=6),
                    purge, usual(READ_CARD), usual(READ_USER_DATA), create, REPEAT)
        script.case(f"not reusable, {name}: purge, create", full(LOADED, curve, reusable=0),
                    purge, usual(READ_CARD), usual(READ_USER_DATA), usual(READ_ISSUER_DATA), create, purge, REPEAT)
    script.case("prohibited", loaded(purge_prohibited=1), purge, usual(READ_CARD))
    script.case("prohibited, not reusable", loaded(purge_prohibited=1, reusable=0), purge)
    script.case("at Remaining 0", loaded(remaining=0), purge, create)


def check_wallet(script):
    challenge = (0x16, CHALLENGE)
    rows = [("tag 14 absent", (challenge,)), ("tag 14 alone", ((0x14, KEY_CHALLENGE),)), ("no field", ())]
    for length in (0, 1, 15, 16, 17, 32):
        rows.append((f"tag 14 of {length} bytes", (challenge, (0x14, some(length, 14)))))
    for length in (0, 1, 15, 17, 32):
        rows.append((f"Challenge of {length} bytes", ((0x16, some(length, 16)), (0x14, KEY_CHALLENGE))))
    for curve, name in CURVES.items():
        for words, fields in rows:
            script.case(f"{words}, {name}", loaded(curve, wallet_number=258), request(CHECK_WALLET, *fields))
    whole, without = usual(CHECK_WALLET), request(CHECK_WALLET, challenge)
    for start in (0, 255, 65_535, TOP_32 - 1, TOP_32):
        script.case(f"counter at {start}", loaded(check_wallet_counter=start), whole, whole)
        script.case(f"counter at {start}, tag 14 absent", loaded(check_wallet_counter=start), without, without)
    script.case("at Remaining 0", loaded(remaining=0, signed_hashes=TOP_32), whole)


# ---------------------------------------------------------------- SIGN


def sign_fields(script):
    size = (0x51, b"\x20")
    array = hashes(1)[0]
    rows = (
        ("array empty, size there", ((0x50, b""), size)),
        ("array empty in long form, size there", (long_field(0x50, b""), size)),
        ("array empty, size absent", ((0x50, b""),)),
        ("array alone", (array,)),
        ("size alone", (size,)),
        ("size alone, empty", ((0x51, b""),)),
        ("size empty", (array, (0x51, b""))),
        ("size 0", (array, (0x51, b"\0"))),
        ("size 31", (array, (0x51, b"\x1f"))),
        ("size 33", (array, (0x51, b"\x21"))),
        ("size 64, one hash of 64", ((0x50, some(64)), (0x51, b"\x40"))),
        ("size of two bytes", (array, (0x51, b"\0\x20"))),
        ("array of 1 byte", ((0x50, b"h"), size)),
        ("array of 31 bytes", ((0x50, some(31)), size)),
        ("array of 33 bytes", ((0x50, some(33)), size)),
        ("array of 63 bytes", ((0x50, some(63)), size)),
        ("array of 319 bytes", ((0x50, some(319)), size)),
        ("array of 321 bytes", ((0x50, some(321)), size)),
        ("array of 352 bytes: 11 hashes", hashes(11)),
        ("size in long form", (array, long_field(0x51, b"\x20"))),
        ("array and size both empty", ((0x50, b""), (0x51, b""))),
    )
    cards = {"signatures held": loaded(last_signatures=some(64, 30)), "none held, Remaining 0": loaded(remaining=0)}
    for words, fields in rows:
        for which, card in cards.items():
            script.case(f"{words}; {which}", card, confirmed(SIGN, *fields))


def sign_counts(script):
    for count in range(1, 12):
        for curve, name in CURVES.items():
            if curve == SECP256K1 or count in (1, 4):
                script.case(f"{count} hashes, {name}", loaded(curve, wallet_number=515), sign(count, count))
    script.case("ten, then one: the old signatures go", loaded(ED25519), sign(10), sign(1, 1), REPEAT)
    script.case("one, then three, then two", loaded(), sign(1), sign(3, 1), sign(2, 2), REPEAT)


def sign_repeat(script):
    for count in (1, 2, 3, 4, 9, 10):
        script.case(f"{count} held", loaded(last_signatures=some(64 * count, 50 + count)), REPEAT)
    held = some(128, 60)
    rows = (
        ("none held", loaded()),
        ("none held, Remaining 0", loaded(remaining=0)),
        ("Remaining 0", loaded(remaining=0, last_signatures=held)),
        ("Signed_Hashes at its top", loaded(signed_hashes=TOP_32, last_signatures=held)),
        ("user counters at their top", loaded(
            user_counter=TOP_32, user_protected_counter=TOP_32, last_signatures=held)),
        ("ed25519", loaded(ED25519, last_signatures=held)),
        ("Empty", fresh(wallet_number=1)),
        ("Purged", purged()),
    )
    for words, card in rows:
        script.case(words, card, REPEAT, REPEAT)
    script.case("without PIN2", loaded(last_signatures=held), request(SIGN))
    script.case("CVC used, without it", loaded(cvc_used=1, last_signatures=held), REPEAT)
    script.case("CVC used, with it", None, request(SIGN, *CONFIRM_CVC))
    script.case("only a raw transaction, which is unknown", None, request(SIGN, *CONFIRM_CVC, (0x52, b"raw")))


def sign_limits(script):
    for remaining, count in ((0, 1), (1, 5), (2, 1), (256, 1), (65_536, 2), (TOP_32, 1)):
        card = loaded(max_signatures=TOP_32, remaining=remaining)
        script.case(f"Remaining {remaining}, {count} hashes", card, sign(count), sign(1, 1), REPEAT)
    totals = ((TOP_32 - 5, 6), (TOP_32 - 5, 5), (TOP_32 - 1, 1), (TOP_32 - 1, 2), (TOP_32, 1),
              (TOP_32 - 10, 10), (TOP_32 - 9, 10), (255, 1), (65_535, 2), (0xFFFFFF, 1))
    for before, count in totals:
        card = loaded(signed_hashes=before)
        script.case(f"Signed_Hashes {before}, {count} hashes", card, sign(count), usual(READ_CARD))
    script.case("Remaining 0 and too many hashes", loaded(remaining=0, signed_hashes=TOP_32), sign(10))
    for user, protected in ((TOP_32, 7), (7, TOP_32), (TOP_32, TOP_32), (TOP_32 - 1, 255), (0xFFFF, 0xFFFFFF)):
        card = loaded(user_counter=user, user_protected_counter=protected)
        script.case(f"user counters {user} and {protected}", card, sign(2), usual(READ_USER_DATA))
    script.case("a last signature of Max 1, then a new wallet", loaded(max_signatures=1, remaining=1),
                sign(2), sign(1), REPEAT, confirmed(PURGE_WALLET), confirmed(CREATE_WALLET), REPEAT, sign(1), REPEAT)


# ---------------------------------------------------------------- whole lives


def lives(script):
    for curve, reusable in ((SECP256K1, 1), (ED25519, 0)):
        script.case(
            f"a card's life, {CURVES[curve]}, reusable {reusable}", fresh(curve, reusable=reusable, max_signatures=2),
            usual(READ_CARD), REPEAT, confirmed(CREATE_WALLET), usual(READ_CARD), usual(CHECK_WALLET),
            sign(2), REPEAT, usual(WRITE_USER_DATA), sign(1, 1), sign(1, 2), REPEAT, usual(READ_USER_DATA),
            usual(WRITE_ISSUER_DATA), usual(WRITE_ISSUER_DATA), usual(READ_ISSUER_DATA),
            usual(VERIFY_CARD), usual(VALIDATE_CARD), confirmed(PURGE_WALLET), usual(READ_CARD),
            confirmed(CREATE_WALLET), usual(READ_CARD), sign(1, 3),
        )


GROUPS = (
    ("CREATE_WALLET", create_wallet),
    ("PURGE_WALLET", purge_wallet),
    ("CHECK_WALLET", check_wallet),
    ("SIGN: its fields", sign_fields),
    ("SIGN: 1 to 11 hashes", sign_counts),
    ("SIGN: the repeat", sign_repeat),
    ("SIGN: limits", sign_limits),
    ("whole lives", lives),
)

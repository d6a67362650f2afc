"""Recordings of good lines: what is `same` and what is `other`, answers that do not fit, what is summed, cards that change hands, fields
that stand twice."""

from twin.bench import (
    ACCESS, CHALLENGE, CHECK_WALLET, CID, CONFIRM, CREATE_WALLET, DRAW, OWN_FIELDS, PIN1, PIN2, PURGE_WALLET, READ_CARD,
    READ_ISSUER_DATA, READ_USER_DATA, REPEAT, SET_PIN, SIGN, VALIDATE_CARD, VERIFY_CARD, WRITE_ISSUER_DATA, WRITE_USER_DATA, confirmed,
    hashes, issuer_data, key, off_by_last, plain, request, sign, some,
)
from twin.card import settle
from twin.image import ED25519, SECP256K1, decode, encode
from twin.recorder import Recording
from twin.script import hexed

READ = plain(READ_CARD, (0x10, PIN1))
SHORT = bytes.fromhex("00F2")
CREATE, PURGE, VALIDATE = (confirmed(ins) for ins in (CREATE_WALLET, PURGE_WALLET, VALIDATE_CARD))
VERIFY = request(VERIFY_CARD, (0x16, CHALLENGE))
CHECK = request(CHECK_WALLET, *OWN_FIELDS[CHECK_WALLET])
WRITE = request(WRITE_USER_DATA, (0x2A, b"note"))
ISSUE = request(WRITE_ISSUER_DATA, *issuer_data())


def begun(book: list, name: str, **sheet) -> Recording:
    book.append(Recording(name).sheet(**sheet))
    return book[-1]


# ---------------------------------------------------------------- same and other


def other_digit(at: int):
    def changed(response: str) -> str:
        place = at % len(response)
        return response[:place] + "0123456789ABCDEF0"[int(response[place], 16) + 1] + response[place + 1 :]

    return changed


EXPECTATIONS = (
    ("first digit", other_digit(0)), ("second digit", other_digit(1)), ("digit in the middle", other_digit(31)),
    ("last digit", other_digit(-1)), ("last digit but one", other_digit(-2)),
    ("without its last byte", lambda response: response[:-2]), ("its first byte alone", lambda response: response[:2]),
    ("without its first byte", lambda response: response[2:]), ("its word alone", lambda response: response[-4:]),
    ("a byte 00 after it", lambda response: response + "00"), ("a byte 00 before it", lambda response: "00" + response),
    ("a word after it", lambda response: response + "9000"), ("twice", lambda response: response * 2),
    ("as many zeros", lambda response: "0" * len(response)),
    ("90", "90"), ("9000", "9000"), ("00", "00"), ("04", "04"), ("40", "40"), ("44", "44"), ("4", "4"),
)


def others(book: list):
    """One expectation is another than the response, and the card goes on all the same."""
    for name, expected in EXPECTATIONS:
        recording = begun(book, f"other: expected {name}")
        recording.tap(SHORT)
        recording.tap(READ, expected=expected)
        recording.tap(READ)


def others_of_two_bytes(book: list):
    for expected in ("67", "00", "6701", "6800", "7700", "0067", "670000", "67006700", "6A86", "9000", "4", "44"):
        recording = begun(book, f"other: 6700 comes, expected {expected}")
        recording.tap(SHORT, expected=expected)
        recording.tap(SHORT)


def others_of_refusal_4(book: list):
    for expected in ("40", "04", "44", "34", "9000", "6700", "0004", "4444"):
        recording = begun(book, f"other: refusal 4 comes, expected {expected}")
        recording.tap(READ, b"\0", expected=expected)
        recording.tap(READ, b"\0")
        recording.tap(READ)


def others_all(book: list):
    recording = begun(book, "other in the first, a middle and the last tap")
    recording.tap(CREATE, expected=other_digit(7))
    recording.tap(sign(2))
    recording.tap(sign(1), expected=other_digit(-5))
    recording.tap(REPEAT)
    recording.tap(READ, expected="4")
    recording = begun(book, "other in every tap", curve="ed25519")
    for sent in (CREATE, sign(2), REPEAT, VERIFY, READ):
        recording.tap(sent, expected="90")


# ---------------------------------------------------------------- answers


def on_a_wallet(book: list, name: str, **sheet) -> Recording:
    recording = begun(book, name, **sheet)
    recording.tap(CREATE)
    return recording


def empty_answers(book: list):
    recording = on_a_wallet(book, "answers empty where none are asked")
    for sent in (READ, WRITE, request(READ_USER_DATA), request(READ_ISSUER_DATA), SHORT, REPEAT, PURGE):
        recording.tap(sent, b"")
    for expected in (None, "9000"):
        words = "expected" if expected is None else "not expected"
        recording = begun(book, f"answers empty where some are asked, refusal 4 {words}")
        recording.tap(CREATE, b"", expected=expected)
        recording.tap(CREATE)
        for sent in (sign(1), sign(10), CHECK, VERIFY, VALIDATE, ISSUE):
            recording.tap(sent, b"", expected=expected)
        recording.tap(sign(1))


def answers_not_asked(book: list):
    recording = on_a_wallet(book, "answers given where none are asked: refusal 4")
    recording.tap(sign(1))
    new_pins = confirmed(SET_PIN, (0x12, PIN1), (0x13, PIN2))
    for sent in (READ, WRITE, request(READ_USER_DATA), request(READ_ISSUER_DATA), REPEAT, new_pins, PURGE):
        recording.tap(sent, b"\1")
        recording.tap(sent, some(64, 5))
    recording = on_a_wallet(book, "answers given to refused commands are not looked at")
    for sent in (SHORT, b"\x80" + READ[1:], plain(0xF5, (0x10, PIN1)), CREATE, confirmed(SIGN, *hashes(11)), REPEAT, off_by_last(READ)):
        recording.tap(sent, some(3, 6))


def wrong_answers(book: list):
    for curve, number in (("secp256k1", SECP256K1), ("ed25519", ED25519)):
        recording = begun(book, f"answers of the wrong shape, {curve}", curve=curve)
        good = key(number, 1)
        for answers in (good[:-1], good + b"\0", b"\5" + good[1:], b"\4", b"\4" * 33, b"\4" * 64):
            recording.tap(CREATE, answers)
        recording.tap(CREATE, good)
        recording.tap(READ)
    for answers in (b"\0", some(63), some(65), some(128)):
        recording.tap(sign(1), answers)
    for answers in (some(64), some(127), some(129), some(192)):
        recording.tap(sign(2), answers)
    for answers in (some(64), some(127), some(128)):
        recording.tap(CHECK, answers)
    for answers in (b"\2", b"\xff", b"\1\1", b"\0\0", b"\0", b"\1"):
        recording.tap(ISSUE, answers)
    recording.tap(sign(2))


def unchanged_after_4(book: list):
    recording = begun(book, "refusal 4 leaves the card as it was", max="3")
    recording.tap(READ)
    recording.tap(CREATE, b"\4")
    recording.tap(READ)
    recording.tap(CREATE)
    for count in (1, 2, 3):
        recording.tap(sign(count), b"")
        recording.tap(READ)
        recording.tap(sign(count))
    recording.tap(REPEAT, b"\0")
    recording.tap(sign(1), b"")
    recording.tap(REPEAT)
    recording.tap(PURGE, b"\0")
    recording.tap(READ)


# ---------------------------------------------------------------- sums


def signs(book: list):
    recording = on_a_wallet(book, "sums: SIGN over 1 to 10 hashes")
    for count in range(1, 11):
        recording.tap(sign(count))
    for count in (1, 5, 10):
        recording = on_a_wallet(book, f"sums: one SIGN over {count}", curve="ed25519", max="1")
        recording.tap(sign(count))


def repeats(book: list):
    recording = on_a_wallet(book, "sums: the repeat counts nothing")
    recording.tap(REPEAT)
    recording.tap(sign(2))
    recording.tap(REPEAT)
    recording.tap(confirmed(SIGN, (0x52, b"\1")))
    recording.tap(REPEAT, times=3)
    recording.tap(sign(1))
    recording.tap(REPEAT)


def wallets(book: list):
    recording = begun(book, "sums: purged and created again", max="4")
    for counts in ((1, 1, 2), (1, 3), (1,)):
        recording.tap(CREATE)
        for count in counts:
            recording.tap(sign(count))
        if len(counts) > 1:
            recording.tap(PURGE)
            recording.tap(READ)
    recording = on_a_wallet(book, "sums: purged and not created again", max="4")
    recording.tap(sign(2))
    recording.tap(PURGE)
    recording = on_a_wallet(book, "sums: a second CREATE_WALLET is refused", max="4")
    recording.tap(sign(2))
    recording.tap(CREATE)
    recording.tap(sign(1))
    recording = on_a_wallet(book, "sums: created after a purge, no SIGN yet", max="4")
    recording.tap(sign(2))
    recording.tap(PURGE)
    recording.tap(CREATE)


def dead_wallets(book: list):
    recording = on_a_wallet(book, "sums: a card that is not reusable is purged", reusable="0", max="2")
    recording.tap(sign(3))
    recording.tap(PURGE)
    for sent in (READ, CREATE, sign(1), REPEAT, VERIFY, PURGE):
        recording.tap(sent)
    recording = on_a_wallet(book, "sums: a purge is prohibited", nopurge="1", max="2")
    recording.tap(sign(3))
    recording.tap(PURGE)
    recording.tap(READ)


def refused_signs(book: list):
    recording = on_a_wallet(book, "sums: a SIGN that is refused, by each check")
    recording.tap(sign(1))
    good = sign(2)
    refused = (
        good + b"\0", b"\1" + good[1:], b"\0\xfd" + good[2:], good[:2] + b"\1" + good[3:], good[:3] + b"\2" + good[4:],
        plain(SIGN, (0x10, PIN1), *hashes(2)), request(SIGN, *hashes(2)), confirmed(SIGN, hashes(2)[0]),
        confirmed(SIGN, (0x50, b""), (0x51, b"\x20")), confirmed(SIGN, *hashes(11)), confirmed(SIGN, (0x50, some(33)), (0x51, b"\x20")),
        plain(SIGN, (0x10, off_by_last(PIN1)), *hashes(2)),
    )
    for sent in refused:
        assert len(recording.tap(sent)) == 4, sent
    recording = begun(book, "sums: a SIGN without a wallet")
    recording.tap(sign(1))
    recording = begun(book, "sums: a card that is not activated", active="0")
    for sent in (READ, CREATE, sign(1), request(READ_ISSUER_DATA)):
        recording.tap(sent)


def used_up(book: list):
    recording = on_a_wallet(book, "sums: no signature remains", max="2", curve="ed25519")
    recording.tap(sign(10))
    recording.tap(sign(1))
    recording.tap(sign(1))
    recording.tap(REPEAT)
    recording.tap(READ)
    recording = on_a_wallet(book, "sums: the highest maximum", max="4294967295", curve="ed25519")
    recording.tap(READ)
    recording.tap(sign(2))


def no_signs(book: list):
    """Other commands with the hash fields in them, and responses of 9001 to 9003."""
    recording = on_a_wallet(book, "sums: hash arrays in other commands")
    recording.tap(sign(1))
    for ins in (READ_CARD, READ_USER_DATA, READ_ISSUER_DATA, VALIDATE_CARD):
        recording.tap(confirmed(ins, *hashes(3)))
    recording.tap(request(WRITE_USER_DATA, (0x2A, b"x"), *hashes(3)))
    recording = on_a_wallet(book, "sums: SET_PIN answers 9000 to 9003", curve="ed25519")
    recording.tap(sign(3))
    codes = [PIN1, PIN2]
    for new in ((PIN1, PIN2), (some(32, 1), PIN2), (some(32, 1), some(32, 2)), (some(32, 3), some(32, 4))):
        fields = (0x10, codes[0]), (0x01, CID), (0x11, codes[1])
        recording.tap(plain(SET_PIN, *fields, (0x12, new[0]), (0x13, new[1]), *hashes(4)))
        codes = new
    recording.tap(plain(SIGN, (0x10, codes[0]), fields[1], (0x11, codes[1]), *hashes(2)))
    recording.tap(sign(2))


# ---------------------------------------------------------------- from hand to hand


def owners(book: list):
    """Ten times a purge and a new wallet, the repeat before and after each. One hash, then 1 to 10 and one more: 66 in all."""
    recording = on_a_wallet(book, "sums: ten owners after the first", max="3")
    signed = recording.tap(sign(1))
    for owner in range(1, 11):
        assert recording.tap(REPEAT) == signed
        for sent in (PURGE, CREATE):
            recording.tap(sent)
            assert recording.tap(REPEAT) == "6985", sent
        recording.tap(sign(owner))
        signed = recording.tap(sign(1))
    assert recording.tap(REPEAT) == signed
    assert recording.play.last_line() == "1\t66\t2\t66\n"


def last_owners_were_given(book: list):
    """Recorded on a card that kept the signatures over a purge: `other` until the new wallet has signed."""
    recording = on_a_wallet(book, "other: of a card that gave the last owner's signatures", max="3")
    recording.tap(sign(3))
    former = decode(recording.play.image).last_signatures
    recording.tap(PURGE)
    recording.tap(CREATE)
    kept = encode(decode(recording.play.image)._replace(last_signatures=former))
    before = settle(kept, REPEAT, DRAW, b"").response
    assert former in before
    recording.tap(REPEAT, b"", expected=hexed(before))
    recording.tap(sign(1))
    recording.tap(REPEAT)


# ---------------------------------------------------------------- fields that stand twice


def hashes_twice(book: list):
    """Of two arrays, or two sizes, none is signed and nothing is summed."""
    recording = on_a_wallet(book, "sums: the hash array stands twice", curve="ed25519")
    for sent in (confirmed(SIGN, *hashes(2), hashes(5)[0]), confirmed(SIGN, (0x51, b"\x20"), hashes(1)[0], (0x51, b"\x21"))):
        assert recording.tap(sent) == "6A86", sent
    recording.tap(plain(SIGN, *hashes(1), (0x11, PIN2), (0x01, CID), (0x10, PIN1)))


def fields_twice(book: list):
    """The play goes on after them, with the codes that were."""
    recording = on_a_wallet(book, "fields that stand twice")
    refused = (
        plain(READ_CARD, (0x10, PIN1), (0x10, PIN1)), request(READ_USER_DATA, (0x01, CID)),
        confirmed(SET_PIN, (0x12, PIN1), (0x13, some(32, 1)), (0x13, some(32, 2))), request(WRITE_USER_DATA, (0x2A, b"x"), (0x2A, b"x")),
        request(WRITE_ISSUER_DATA, *issuer_data(), issuer_data()[0]),
    )
    for sent in refused:
        assert recording.tap(sent) == "6A86", sent
    assert recording.tap(sign(1), some(64)).endswith("9000")
    assert recording.tap(refused[0], some(3)) == "6A86", "answers to a refused command"
    taken = request(READ_CARD, (0x01, CID)), request(WRITE_ISSUER_DATA, *issuer_data(), (0xEE, b"x"), (0xEE, b"x"))
    for sent in taken:
        assert recording.tap(sent).endswith("9000"), sent


def first_was_taken(book: list):
    """Recorded on a card that took the first of two: `other` at each of these."""
    recording = on_a_wallet(book, "other: of a card that took the first of two fields")
    rows = (
        (SIGN, (*ACCESS, *CONFIRM, *hashes(2)), hashes(5)[0]), (SET_PIN, (*ACCESS, *CONFIRM, (0x12, PIN1), (0x13, PIN2)), (0x13, some(32))),
        (WRITE_USER_DATA, (*ACCESS, (0x2A, b"one")), (0x2A, b"two")), (READ_USER_DATA, ACCESS, (0x01, CID)),
    )
    for ins, fields, again in rows:
        answers = recording.fitting(plain(ins, *fields), DRAW)
        before = settle(recording.play.image, plain(ins, *fields), DRAW, answers).response
        assert before[-2:] == b"\x90\0", before
        recording.tap(plain(ins, *fields, again), answers, expected=hexed(before))
        recording.tap(READ)


GROUPS = (others, others_of_two_bytes, others_of_refusal_4, others_all, empty_answers, answers_not_asked, wrong_answers,
          unchanged_after_4, signs, repeats, wallets, dead_wallets, refused_signs, used_up, no_signs, owners, last_owners_were_given,
          hashes_twice, fields_twice, first_was_taken)

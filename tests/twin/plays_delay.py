"""Recordings of cards that make the holder wait: a pause on the sheet, wrong codes, what drops a request and what clears the count; and
recordings of cards that waited otherwise."""

from twin.bench import (
    ACCESS, ACTIVATE_CARD, CID, CONFIRM, CREATE_WALLET, CVC, DEFAULT_PIN1, DEFAULT_PIN2, PIN1, PIN2, READ_CARD, READ_ISSUER_DATA,
    READ_USER_DATA, REPEAT, SET_PIN, SIGN, VERIFY_CARD, WRITE_USER_DATA, confirmation, confirmed, hashes, off_by_last, plain, request, sign,
    some,
)
from twin.plays_taps import CHECK, CREATE, ISSUE, PURGE, READ, SHORT, VALIDATE, VERIFY, WRITE, begun
from twin.recorder import Recording, waiting

WRONG, NOT_NOW, SAID_NO, STRAY = "6A86", "6985", "6286", "4"
WRONG_PIN1 = plain(READ_CARD, (0x10, off_by_last(PIN1)))
WRONG_PIN2 = plain(SIGN, *ACCESS, (0x11, off_by_last(PIN2)), *hashes(1))
DRAWS = [some(32, 300 + number) for number in range(4)]


def comes(recording: Recording, expected: str, sent: bytes, answers: bytes = None):
    response = recording.tap(sent, answers)
    assert response == expected, (recording.name, sent.hex(), response)


def done(response: str):
    assert response.endswith("9000"), response


# ---------------------------------------------------------------- the pause of the sheet


def pauses(book: list):
    """What needs PIN2 waits, and nothing else does. E0 does with 2B or 2D alone. What waits is summed once, when it is done."""
    free = READ, VERIFY, WRITE, ISSUE, request(READ_ISSUER_DATA), request(READ_USER_DATA), READ, CHECK
    for seconds in (0, 2):
        recording = begun(book, f"delay: a pause of {seconds}", pause=str(seconds), max="5")
        waits = CREATE, sign(2), VALIDATE, confirmed(SET_PIN, (0x12, PIN1), (0x13, PIN2)), REPEAT, PURGE, CREATE, sign(3)
        for sent, after in zip(waits, free):
            done(recording.tap_after(seconds, sent))
            done(recording.tap(after))
        for fields, waits in ((((0x2A, b"x"),), 0), (((0x2C, bytes(4)),), 0), (((0x2B, b"x"),), seconds), (((0x2D, bytes(4)),), seconds)):
            done(recording.tap_after(waits, confirmed(WRITE_USER_DATA, *fields)))
        assert recording.play.last_line() == "4\t5\t1\t5\n"


def longest(book: list):
    """A pause of 60 and 60 wrong codes, which a 61st does not make more; 59 and one more, with no pause to add."""
    recording = begun(book, "delay: waits of 120 and 60", pause="60", curve="ed25519")
    recording.tap(WRONG_PIN1, times=61)
    done(recording.tap_after(120, CREATE))
    recording.tap(WRONG_PIN1, times=59)
    comes(recording, waiting(59), READ)
    comes(recording, WRONG, WRONG_PIN1)
    done(recording.tap_after(60, READ))


def other_draws(book: list):
    """The request alone is held: another draw and other answers at each sending, and at the last one those that fit."""
    recording = begun(book, "delay: another draw and other answers at each sending", pause="3", max="5")
    for at, (draw, answers) in enumerate(zip(DRAWS, (b"", b"\1", some(700), None))):
        response = recording.tap(CREATE, answers, draw)
        assert response == waiting(3 - at) if answers is not None else response.endswith("9000")
    recording.tap(READ)


def number_4(book: list):
    """Answers of the wrong shape at the last sending, twice; the next one goes on. Other bytes with such answers drop nothing."""
    recording = begun(book, "delay: refusal 4 at the last sending", pause="2", max="5")
    for seconds in (2, 1):
        comes(recording, waiting(seconds), CREATE, b"\4")
    for answers in (b"", b"\4"):
        comes(recording, STRAY, CREATE, answers)
    comes(recording, STRAY, READ, b"\0")
    done(recording.tap(CREATE))
    comes(recording, waiting(2), sign(1))
    comes(recording, STRAY, VERIFY, b"")
    done(recording.tap_after(1, sign(1)))
    assert recording.play.last_line() == "4\t1\t1\t1\n"


# ---------------------------------------------------------------- what is dropped


def dropping(book: list):
    """Other bytes that are done, and a refusal by each check up to 10 that an activated card makes: from the beginning again."""
    recording = begun(book, "delay: what drops a request", pause="3", max="5", usecvc="1")
    create = confirmed(CREATE_WALLET, (0x19, CVC))
    others = (
        READ, VERIFY, WRITE, SHORT, b"\x80" + create[1:], b"\0\xf5" + create[2:], create[:2] + b"\1" + create[3:],
        create[:3] + b"\1" + create[4:], create[:-1], create + b"\0", plain(READ_CARD, (0x10, PIN1), (0x10, PIN1)),
        plain(READ_CARD, (0x01, CID)), plain(CREATE_WALLET, (0x10, PIN1)), sign(1), request(CREATE_WALLET, (0x19, CVC)),
        request(VERIFY_CARD),
    )
    for at, sent in enumerate(others):
        for left in range(3, at % 3, -1):
            comes(recording, waiting(left), create)
        recording.tap(sent)
    done(recording.tap_after(3, create))


def in_its_stead(book: list):
    """Two requests by turns hold each other up. The same fields under the other Lc form, or in another order, are another request."""
    recording = begun(book, "delay: two requests by turns", pause="2")
    for _ in range(3):
        for sent in (CREATE, VALIDATE):
            comes(recording, waiting(2), sent)
    done(recording.tap_after(1, VALIDATE))
    longer = CREATE[:4] + b"\0\0" + CREATE[4:]
    turned = plain(CREATE_WALLET, *CONFIRM, *ACCESS)
    more = confirmed(CREATE_WALLET, (0x7F, b""))
    for sent in (CREATE, longer, turned, more, CREATE, longer):
        comes(recording, waiting(2), sent)
    comes(recording, waiting(1), longer)
    done(recording.tap(longer))


# ---------------------------------------------------------------- wrong codes


def wrong_codes(book: list):
    """PIN1, PIN2 and CVC, each wrong, of another length and empty, cost a second each, and whatever comes next pays, once."""
    recording = begun(book, "delay: wrong codes", usecvc="1", max="9")
    pin2, cvc = (0x11, PIN2), (0x19, CVC)
    done(recording.tap(plain(CREATE_WALLET, *ACCESS, pin2, cvc)))
    wrong = [plain(READ_CARD, (0x10, code)) for code in (off_by_last(PIN1), PIN1[:-1], PIN1 + b"\0", b"", PIN2, DEFAULT_PIN2)]
    wrong += [plain(SIGN, *ACCESS, (0x11, code), cvc) for code in (off_by_last(PIN2), PIN2[1:], b"", PIN1, DEFAULT_PIN1)]
    wrong += [plain(SIGN, *ACCESS, pin2, (0x19, code)) for code in (b"124", b"12", b"", b"1234")]
    wrong += [plain(SIGN, *ACCESS, (0x11, off_by_last(PIN2)), (0x19, b"124"))]
    for sent in wrong:
        comes(recording, WRONG, sent)
        done(recording.tap_after(1, READ))
    done(recording.tap(READ))
    for sent in wrong[:5]:
        comes(recording, WRONG, sent)
    done(recording.tap_after(5, plain(SIGN, *ACCESS, pin2, cvc, *hashes(1))))


def free_codes(book: list):
    """The defaults, an absent code, a wrong CID, codes that the command does not need: no second for any of them."""
    recording = begun(book, "delay: codes that cost nothing", usecvc="1", max="9")
    pin2, cvc = (0x11, PIN2), (0x19, CVC)
    done(recording.tap(plain(CREATE_WALLET, *ACCESS, pin2, cvc)))
    free = (
        plain(READ_CARD, (0x10, DEFAULT_PIN1)), plain(READ_CARD, (0x01, CID)), plain(SIGN, *ACCESS, (0x11, DEFAULT_PIN2), cvc),
        plain(SIGN, *ACCESS, cvc), plain(SIGN, *ACCESS, (0x11, DEFAULT_PIN2), (0x19, b"124")), plain(SIGN, *ACCESS, (0x19, b"124")),
        plain(SIGN, *ACCESS, pin2), plain(VERIFY_CARD, (0x10, PIN1), (0x01, off_by_last(CID))),
    )
    for sent in free:
        comes(recording, WRONG, sent)
        done(recording.tap(READ))
    done(recording.tap(plain(READ_CARD, *ACCESS, (0x11, b"no"), (0x19, b"no"))))
    done(recording.tap(request(WRITE_USER_DATA, (0x2A, b"x"), (0x11, b"no"), (0x19, b"no"))))
    done(recording.tap(READ))


def count_and_pause(book: list):
    """Both add up where PIN2 is needed. A default PIN2 drops what is held and leaves the count; a wrong one adds to it."""
    recording = begun(book, "delay: wrong codes and a pause", pause="3", max="5")
    done(recording.tap_after(3, CREATE))
    for _ in range(2):
        comes(recording, WRONG, WRONG_PIN2)
    comes(recording, waiting(5), sign(1))
    comes(recording, waiting(2), READ)
    comes(recording, waiting(5), sign(1))
    comes(recording, WRONG, plain(SIGN, *ACCESS, (0x11, DEFAULT_PIN2), *hashes(1)))
    comes(recording, waiting(5), sign(1))
    comes(recording, WRONG, WRONG_PIN1)
    done(recording.tap_after(6, sign(1)))
    done(recording.tap_after(3, sign(1)))
    done(recording.tap(READ))
    assert recording.play.last_line() == "3\t2\t2\t2\n"


def cleared(book: list):
    """What a later check refuses has waited, and has cleared the count: by 11, 12 and 13."""
    recording = begun(book, "delay: refused after the wait", pause="1", max="1")
    done(recording.tap_after(1, CREATE))
    done(recording.tap_after(1, sign(1)))
    no_hash = confirmed(SIGN, (0x50, b""), (0x51, b"\x20"))
    for seconds, word, sent, answers in ((3, WRONG, no_hash, b"\7"), (3, NOT_NOW, sign(1), b"\7"), (2, SAID_NO, ISSUE, b"\0")):
        for _ in range(2):
            comes(recording, WRONG, WRONG_PIN1)
        assert recording.tap_after(seconds, sent, answers) == word
        done(recording.tap(READ))
        assert recording.tap_after(1, no_hash) == WRONG
    assert recording.play.last_line() == "0\t1\t1\t1\n"


def by_post(book: list):
    """A card that is not activated counts wrong codes too. ACTIVATE_CARD needs no PIN2, so that the pause is none of its."""
    recording = begun(book, "delay: a card by post", pause="2", active="0")
    comes(recording, NOT_NOW, CREATE)
    comes(recording, WRONG, WRONG_PIN1)
    keep = request(ACTIVATE_CARD, *confirmation())
    comes(recording, waiting(1), keep)
    comes(recording, SAID_NO, keep, b"\0")
    comes(recording, STRAY, keep, b"\2")
    done(recording.tap(keep))
    done(recording.tap_after(2, CREATE))


# ---------------------------------------------------------------- cards that waited otherwise


def wrong_cards(book: list):
    """Recorded on cards that wait too short, too long, with a CID, or not at all: `other` wherever they differ."""
    created = begun([], "as it is").tap(CREATE)
    rows = (
        ("a second less", [waiting(2), created, "6985", "6985"]), ("a second more", [waiting(3), waiting(2), waiting(1), created]),
        ("and told seconds", ["1C0200029789", "1C0200019789", created, "6985"]), ("and told no time", ["9789", "9789", created, "6985"]),
        ("and told its CID", [f"0108{CID.hex().upper()}{waiting(left)}" for left in (2, 1)] + [created, "6985"]),
        ("not at all", [created] + ["6985"] * 3),
    )
    for name, expected in rows:
        recording = begun(book, f"other: of a card that waited {name}", pause="2")
        for one in expected:
            recording.tap(CREATE, expected=one)
        recording.tap(READ)
    recording = begun(book, "other: of a card that counted no wrong code")
    read = recording.tap(READ)
    comes(recording, WRONG, WRONG_PIN1)
    for _ in range(3):
        recording.tap(READ, expected=read)


GROUPS = (
    pauses, longest, other_draws, number_4, dropping, in_its_stead, wrong_codes, free_codes, count_and_pause, cleared, by_post, wrong_cards,
)

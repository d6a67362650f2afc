"""Cases for the security delay: waits to their end, what is the same request, what comes after the wait, images made by hand.

What each call must come to, and what the card then holds, stands here by itself, so that the twin is held to it too. What drops
a held request stands in cases_drops.py, what is counted as a wrong code in cases_count.py.
"""

from twin.bench import (
    ACTIVATE_CARD, CID, NAMES, OWN_FIELDS, PIN1, PIN2, READ_CARD, READ_USER_DATA, SIGN, VALIDATE_CARD, WITH_PIN2, WRITE_ISSUER_DATA,
    WRITE_USER_DATA, confirmed, fresh, header, loaded, long_field, long_lc, pause, plain, ready, request, sign, some, usual,
)
from twin.cases_handover import DONE, NO_CONDITION, PAUSED, came_to, waited
from twin.image import Card, decode
from twin.request import field

READ = plain(READ_CARD, (0x10, PIN1))
VALIDATE = confirmed(VALIDATE_CARD)
UNFIT = (0x6A86, 11)


def waiting(script) -> tuple:
    """Wrong codes counted, seconds left, the held request."""
    card = decode(script.image)
    return card.wrong_codes, card.seconds_left, card.held_request


def nothing_waits(script):
    assert waiting(script) == (0, 0, b""), waiting(script)


def holding(left: int, sent: bytes = VALIDATE, **values) -> Card:
    """A fresh card that holds this request, with so many seconds left."""
    return fresh(**{"pause": 3, "seconds_left": left, "held_request": sent, **values})


# ---------------------------------------------------------------- to the end


def to_the_end(script):
    """A second less at each sending, and nothing else changes; the one after the last goes on, and nothing is left of the wait."""
    rows = (
        ("pause 1", fresh(pause=1), VALIDATE, 1), ("one wrong code", fresh(wrong_codes=1), READ, 1),
        ("pause 60", fresh(pause=60), VALIDATE, 60), ("60 wrong codes", loaded(pause=60, wrong_codes=60), READ, 60),
        ("pause 60 and 60 wrong codes", fresh(pause=60, wrong_codes=60), VALIDATE, 120),
    )
    for words, card, sent, seconds in rows:
        script.say(f"{words}: {seconds} seconds, and then it is done")
        script.use(card)
        for left in range(seconds, 0, -1):
            if left in (1, 2, seconds):
                assert script.ask(sent)[:3] == (0, 0, 0x9789)
            settled = script.settle(sent)
            assert (settled.number, settled.reason, settled.word, settled.response) == (0, 0, 0x9789, pause(left)), settled
            assert decode(settled.image) == card._replace(seconds_left=left, held_request=sent), left
        came_to(script, sent, DONE)
        assert decode(script.image) == card._replace(wrong_codes=0, card_validation_counter=int(sent == VALIDATE))


def each_command(script):
    """Pause 2 and one wrong code: three seconds for a command that needs PIN2, one for every other."""
    for ins, name in NAMES.items():
        script.say(f"{name}, pause 2 and one wrong code")
        script.use(ready(ins, pause=2, wrong_codes=1))
        for left in range(3 if ins in WITH_PIN2 else 1, 0, -1):
            assert came_to(script, usual(ins), PAUSED).response == pause(left), name
        assert 0x9000 <= script.tap(usual(ins)).word <= 0x9003, name
        nothing_waits(script)


def user_data_needs(script):
    """WRITE_USER_DATA needs PIN2 with 2B or 2D in it, be they empty or not, and without them it does not wait for the pause."""
    every = dict(OWN_FIELDS[WRITE_USER_DATA])
    for tags in ((0x2A,), (0x2C,), (0x2A, 0x2C), (0x2B,), (0x2D,), (0x2A, 0x2B), (0x2C, 0x2D), tuple(every)):
        protected = bool({0x2B, 0x2D} & {*tags})
        for wrong in (0, 2):
            script.say(f"WRITE_USER_DATA of {' '.join(f'{tag:02X}' for tag in tags)}, pause 1, {wrong} wrong codes")
            script.use(fresh(pause=1, wrong_codes=wrong))
            waited(script, confirmed(WRITE_USER_DATA, *((tag, every[tag]) for tag in tags)), wrong + protected, DONE)
    script.say("with PIN2 and no field of its own, with 2B empty, with 2D of three bytes: check 11 after the wait")
    for fields, seconds in ((), 0), (((0x2B, b""),), 1), (((0x2D, b"123"),), 1):
        script.use(fresh(pause=1))
        waited(script, confirmed(WRITE_USER_DATA, *fields), seconds, UNFIT)


# ---------------------------------------------------------------- the same bytes


def turned(sent: bytes, at: int) -> bytes:
    return sent[:at] + bytes([sent[at] ^ 1 << at % 8]) + sent[at + 1 :]


def one_bit(script):
    """The held request with a bit turned in each of its bytes: refused or made to wait from the beginning, and never a second less."""
    script.say("a bit of the held request turned, in each byte")
    sent = confirmed(VALIDATE_CARD, (0x77, b"x"))
    for at in range(len(sent)):
        script.use(holding(2, sent, wrong_codes=7))
        settled = script.settle(turned(sent, at))
        if settled.reason:
            assert settled.reason <= 10 and waiting(script)[1:] == (0, b""), at
        else:
            seconds = 7 if at == 1 else 10  # INS F4 has become F6, which needs no PIN2
            assert settled.response == pause(seconds) and waiting(script) == (7, seconds, turned(sent, at)), at


def other_forms(script):
    """The same payload under the other Lc, the same fields in another form or order, or with one of no meaning more."""
    rows = (
        ("under the three-byte Lc", header(VALIDATE_CARD) + long_lc(VALIDATE[5:])),
        ("in another order", plain(VALIDATE_CARD, (0x11, PIN2), (0x10, PIN1), (0x01, CID))),
        ("with a length of three bytes", request(VALIDATE_CARD, long_field(0x11, PIN2))),
        ("with a field more", confirmed(VALIDATE_CARD, (0x77, b""))),
    )
    for words, other in rows:
        for first, then in ((VALIDATE, other), (other, VALIDATE)):
            script.say(f"the same {words}, {'after' if first == VALIDATE else 'before'} it: from the beginning")
            script.use(fresh(pause=2))
            for sent, left in ((first, 2), (first, 1), (then, 2), (first, 2), (first, 1)):
                assert came_to(script, sent, PAUSED).response == pause(left), words
                assert waiting(script) == (0, left, sent), words
            came_to(script, first, DONE)


def fronts_and_ends(script):
    """A front of the held bytes, and more than them, are no requests. Where an image holds such bytes, they are not the request."""
    others = {"without its last byte": VALIDATE[:-1], "with a byte more": VALIDATE + b"\0", "cut to six bytes": VALIDATE[:6]}
    for words, other in others.items():
        script.say(f"the held request {words}: refused, and the held one is dropped")
        script.use(holding(2))
        came_to(script, other, (0x6700, 1))
        waited(script, VALIDATE, 3, DONE)
        script.say(f"an image that holds the request {words}: other bytes")
        script.use(holding(1, other))
        waited(script, VALIDATE, 3, DONE)
    script.say("a request that ends in 00, and an image that holds all but this byte, or a 00 more: the same but for the length")
    sent = confirmed(VALIDATE_CARD, (0x77, b"\0\0"))
    for held in (sent[:-1], sent[:-2], sent + b"\0", sent + bytes(1024 - len(sent))):
        script.use(holding(1, held))
        assert came_to(script, sent, PAUSED).response == pause(3)
    script.use(holding(1, sent))
    came_to(script, sent, DONE)


def other_draws_and_answers(script):
    """Only the request is compared: each sending has a draw and answers of its own. While it waits they are not looked at."""
    script.say("another draw and other answers at each sending")
    script.use(loaded(pause=4))
    sent, answers = sign(2), (b"", b"\xee", some(128, 1), some(2000, 2))
    for left, given in zip((4, 3, 2, 1), answers):
        draw = some(32, left)
        assert script.ask(sent, draw)[1:] == (0, 0x9789, b"")
        assert script.settle(sent, given, draw).response == pause(left)
    came_to(script, sent, DONE)
    nothing_waits(script)


def longest(script):
    """Of 1,024 bytes, of 1,023, and after a long one a short one: no byte of it is left."""
    def read(length):
        return header(READ_CARD) + long_lc(field(0x10, PIN1) + long_field(0x77, some(length - 45, 3)))

    script.say("requests of 1,024 and of 1,023 bytes wait, one of 1,025 is refused, and a short one takes their place")
    script.use(fresh(wrong_codes=2))
    for sent, left in ((read(1024), 2), (read(1024), 1), (read(1023), 2), (read(1024), 2), (READ, 2)):
        assert came_to(script, sent, PAUSED).response == pause(left)
        assert waiting(script) == (2, left, sent)
    came_to(script, read(1025), (0x6700, 1))
    assert waiting(script) == (2, 0, b"")
    waited(script, read(1024), 2, DONE)
    nothing_waits(script)


# ---------------------------------------------------------------- after the wait, and images by hand


def later_checks(script):
    """Checks 11, 12 and 13 speak after the wait, and clear what was counted and held. Before it they are not heard."""
    rows = (
        ("11", loaded(), confirmed(SIGN, (0x50, b"")), UNFIT), ("12", loaded(remaining=0), sign(1), NO_CONDITION),
        ("11, without PIN2", fresh(), request(WRITE_USER_DATA), UNFIT),
        ("12, without PIN2", fresh(issuer_data_counter=10), usual(WRITE_ISSUER_DATA), NO_CONDITION),
    )
    for words, card, sent, expected in rows:
        seconds = 3 if sent[1] == SIGN else 1
        script.say(f"check {words} after {seconds} seconds")
        script.use(card._replace(pause=2, wrong_codes=1))
        waited(script, sent, seconds, expected)
        assert decode(script.image) == card._replace(pause=2)
    for ins in (WRITE_ISSUER_DATA, ACTIVATE_CARD):
        card = ready(ins, pause=9)
        script.say(f"check 13 after two seconds: {NAMES[ins]}")
        script.use(card._replace(wrong_codes=2))
        for left in (2, 1):
            assert script.settle(usual(ins), b"\0").response == pause(left)
        assert script.settle(usual(ins), b"\0")[1:3] == (13, 0x6286)
        assert decode(script.image) == card


def by_hand(script):
    """Seconds left that count and pause would not give: they alone decide, for the held request."""
    for words, card, seconds in (
        ("no pause, no count, 120 left", dict(pause=0), 120), ("pause 60, 60 wrong codes, one left", dict(pause=60, wrong_codes=60), 1),
        ("pause 1, five left", dict(pause=1), 5),
    ):
        script.say(f"{words}: goes on after {seconds - 1}")
        script.use(holding(seconds, **card))
        for left in range(seconds - 1, 0, -1) if seconds < 9 else (seconds - 1,):
            assert came_to(script, VALIDATE, PAUSED).response == pause(left)
        if seconds < 9:
            came_to(script, VALIDATE, DONE)
            nothing_waits(script)
    script.say("a command held that would not have to wait")
    script.use(holding(3, READ))
    waited(script, READ, 2, DONE)


def held_and_refused(script):
    """A held request that this card refuses: a card, and when it is sent it is refused and dropped."""
    wrong_pin1, wrong_pin2 = plain(READ_CARD, (0x10, PIN2)), request(VALIDATE_CARD, (0x11, PIN1))
    rows = (
        ("six bytes", bytes(6), (0x6700, 1), 0), ("another CLA", b"\x80" + READ[1:], (0x6E00, 2), 0),
        ("no command", header(0xF5) + b"\1\0", (0x6D00, 3), 0), ("P2 01", header(READ_CARD, p2=1) + b"\1\0", (0x6982, 4), 0),
        ("a lone tag", header(READ_CARD) + b"\1\x10", (0x6A86, 5), 0),
        ("a wrong PIN1", wrong_pin1, (0x6A86, 6), 1), ("no CID", plain(READ_USER_DATA, (0x10, PIN1)), (0x6A86, 7), 0),
        ("SIGN on an Empty card", sign(1), (0x6985, 9), 0), ("a wrong PIN2", wrong_pin2, (0x6A86, 10), 1),
        ("1,024 bytes of FF", b"\xff" * 1024, (0x6700, 1), 0),
    )
    for words, held, expected, counts in rows:
        script.say(f"held and refused: {words}")
        script.use(holding(1, held, wrong_codes=2))
        assert script.ask(READ)[:3] == (0, 0, 0x9789)
        came_to(script, held, expected)
        assert waiting(script) == (2 + counts, 0, b""), words


GROUPS = (
    ("delay: to the end", to_the_end),
    ("delay: every command", each_command),
    ("delay: WRITE_USER_DATA with and without PIN2", user_data_needs),
    ("delay: one bit of the held request", one_bit),
    ("delay: the same in another form", other_forms),
    ("delay: a front of the held request, and more than it", fronts_and_ends),
    ("delay: other draws and answers", other_draws_and_answers),
    ("delay: the longest requests", longest),
    ("delay: checks 11 to 13", later_checks),
    ("delay: images by hand", by_hand),
    ("delay: a held request that is refused", held_and_refused),
)

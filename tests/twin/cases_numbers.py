"""Cases for the numbers 1 to 4 and check 13: images, buffers, draws, answers, and the order among them."""

from twin.bench import (
    ACTIVATE_CARD, CHALLENGE, CHECK_WALLET, CONFIRM, CREATE_WALLET, DRAW, NAMES, NO_WAIT, PIN1, READ_CARD, SIGN, WRITE_ISSUER_DATA,
    confirmed, fresh, key, loaded, plain, purged, ready, request, sign, some, usual, without,
)
from twin.card import ask, is_card
from twin.image import ED25519, IMAGE_LENGTH, LOADED, PLACE, SECP256K1, Card, encode

READ = plain(READ_CARD, (0x10, PIN1))
WRITE = usual(WRITE_ISSUER_DATA)
BAD_REQUEST = b""


# ---------------------------------------------------------------- answers


def questioned() -> list:
    """A title, a card and a request for each way in which a command can pass."""
    rows = [(name, ready(ins), usual(ins)) for ins, name in NAMES.items()]
    for ins in (CREATE_WALLET, CHECK_WALLET, WRITE_ISSUER_DATA, ACTIVATE_CARD):
        rows.append((f"{NAMES[ins]}, ed25519", ready(ins, ED25519), usual(ins)))
    for words, fields in (("tag 14 absent", ()), ("tag 14 empty", ((0x14, b""),))):
        rows.append((f"CHECK_WALLET, {words}", loaded(), request(CHECK_WALLET, (0x16, CHALLENGE), *fields)))
    for count in (1, 10):
        rows.append((f"SIGN, {count} hashes", loaded(), sign(count)))
    rows.append(("SIGN, the repeat", loaded(last_signatures=some(64, 1)), confirmed(SIGN)))
    return rows


def wrong_lengths(script):
    """Each command that passes, with answers one byte short, none, one byte long, and one signature more."""
    for words, card, one in questioned():
        good = script.provider.answers(ask(encode(card), one, DRAW).questions)
        script.say(f"{words}: {len(good)} bytes of answers wanted")
        script.use(card)
        if good:
            script.settle(one, good[:-1])
            script.settle(one)
        script.settle(one, good + b"\0")
        script.settle(one, good + some(64, 2))


def wrong_contents(script):
    create = confirmed(CREATE_WALLET)
    for first in (0x00, 0x02, 0x03, 0x05, 0xFF):
        script.case_settled(f"a key of 65 bytes starting {first:02X}", fresh(), create, bytes([first]) + some(64, 3))
    script.case_settled("a key of the other curve, 32 bytes", fresh(), create, key(ED25519, 3))
    script.case_settled("a key of the other curve, 65 bytes", fresh(ED25519), create, key(SECP256K1, 3))
    for first in (0x00, 0x04, 0x05, 0xFF):
        script.case_settled(f"a key of 32 bytes starting {first:02X}", fresh(ED25519), create,
                            bytes([first]) + some(31, 3))
    for said in (0x02, 0x03, 0x80, 0xFF):
        script.case_settled(f"kind 5 answered {said:02X}", fresh(), WRITE, bytes([said]))
    script.case_settled("kind 5 answered 00 01", fresh(), WRITE, b"\0\1")
    script.case_settled("kind 5 answered 00", fresh(), WRITE, b"\0")
    script.case_settled("kind 5 answered 01", fresh(), WRITE, b"\1")
    script.case_settled("signatures of zeros", loaded(), sign(2), bytes(128))
    script.case_settled("signatures of FF", loaded(), sign(2), b"\xff" * 128)


def answers_not_looked_at(script):
    """Refused commands, with answers of many lengths."""
    for words, card, one in (
        ("SIGN refused by check 12", loaded(remaining=0), sign(2)),
        ("WRITE_ISSUER_DATA refused by check 12", fresh(issuer_data_counter=10), WRITE),
        ("CREATE_WALLET refused by check 9", loaded(), confirmed(CREATE_WALLET)),
        ("READ_CARD refused by check 6", fresh(), plain(READ_CARD, (0x10, b""))),
    ):
        for given in (b"", b"\0", b"\1", b"\2", some(64), some(65), some(128), some(2000)):
            script.case_settled(f"{words}, {len(given)} bytes of answers", card, one, given)


# ---------------------------------------------------------------- images


def changed(card: Card, **values) -> bytes:
    return encode(card._replace(**values))


def poked(card: Card, offset: int, value: int) -> bytes:
    image = bytearray(encode(card))
    image[offset] = value
    return bytes(image)


KEY = PLACE["wallet_public_key"]  # its length, which the key follows
SIGNATURES = PLACE["last_signatures"]  # their number
HELD = PLACE["held_request"]  # its length, which the request follows
DATA_PLACES = {
    PLACE["user_data"]: dict(user_data=some(512)),
    PLACE["user_protected_data"]: dict(user_protected_data=some(512)),
    PLACE["issuer_data"]: dict(issuer_data=some(512), issuer_data_signature=some(64)),
}


def with_data(place: int) -> Card:
    """A card with 512 bytes of data after the length at this place."""
    return fresh(**DATA_PLACES[place])


def wrong_values() -> list:
    wallet, ended = loaded(), purged()
    return [
        ("curve 0", changed(fresh(), curve=0)),
        ("curve 3", changed(fresh(), curve=3)),
        ("curve changed under a wallet", changed(wallet, curve=ED25519)),
        ("Max_Signatures 0", changed(fresh(), max_signatures=0)),
        *((f"flag {number} is 2", poked(fresh(), PLACE["reusable"] + number, 2)) for number in range(7)),
        ("a flag is FF", poked(fresh(), PLACE["reusable"], 0xFF)),
        ("Status 0", changed(fresh(wallet_number=1), status=0)),
        ("Status 4", changed(fresh(wallet_number=1), status=4)),
        ("Status Loaded without a key", changed(fresh(), status=LOADED, wallet_number=1)),
        ("Status Empty with a key", changed(fresh(), wallet_public_key=key(SECP256K1, 1))),
        ("Status Purged with a key", changed(ended, wallet_public_key=key(SECP256K1, 1))),
        ("Loaded with wallet number 0", changed(wallet, wallet_number=0)),
        ("Purged with wallet number 0", changed(ended, wallet_number=0)),
        ("Purged and reusable", changed(ended, reusable=1)),
        ("not reusable, Empty, wallet number 1", changed(fresh(reusable=0), wallet_number=1)),
        ("not reusable, Loaded, wallet number 2", changed(loaded(reusable=0), wallet_number=2)),
        ("not reusable, Purged, wallet number 2", changed(ended, wallet_number=2)),
        ("not activated, Loaded", changed(wallet, activated=0)),
        ("not activated, Purged", changed(ended, activated=0)),
        ("not activated, Empty, wallet number 3", changed(fresh(wallet_number=3), activated=0)),
        ("Remaining above Max", changed(wallet, remaining=1001)),
        ("Remaining above Max in its highest byte", poked(wallet, PLACE["remaining"], 0x80)),
        ("Empty with Remaining 1", changed(fresh(), remaining=1)),
        ("Purged with Remaining 1", changed(ended, remaining=1)),
    ]


def wrong_bytes() -> list:
    """Lengths beyond their room, bytes after a value, and images of other lengths."""
    wallet, edwards = loaded(), loaded(ED25519)
    return [
        ("key of 64 bytes", poked(wallet, KEY, 64)),
        ("key of 66 bytes", poked(wallet, KEY, 66)),
        ("key of 255 bytes", poked(wallet, KEY, 255)),
        ("key starting 02", poked(wallet, KEY + 1, 2)),
        ("a byte after a key of 32", poked(edwards, KEY + 1 + 32, 1)),
        ("a byte at the end of the room for the key", poked(edwards, KEY + 65, 1)),
        ("a byte where no key is", poked(fresh(), KEY + 1, 4)),
        *((f"data of 513 at {place}", poked(with_data(place), place + 1, 1)) for place in DATA_PLACES),
        *((f"data of 65,280 at {place}", poked(fresh(), place, 255)) for place in DATA_PLACES),
        *((f"a byte after the data at {place}", poked(fresh(), place + 2, 1)) for place in DATA_PLACES),
        *((f"a byte at the end of the data at {place}", poked(fresh(), place + 513, 1)) for place in DATA_PLACES),
        ("an issuer signature without data", poked(fresh(), PLACE["issuer_data_signature"], 1)),
        ("the last byte of an issuer signature without data", poked(fresh(), PLACE["issuer_data_signature"] + 63, 1)),
        ("255 last signatures", poked(loaded(), SIGNATURES, 255)),
        ("11 last signatures", poked(loaded(last_signatures=some(640)), SIGNATURES, 11)),
        ("a byte after the last signatures", poked(loaded(last_signatures=some(64)), SIGNATURES + 1 + 64, 1)),
        ("the last byte of the image", poked(loaded(last_signatures=some(576)), IMAGE_LENGTH - 1, 1)),
        ("no byte", b""),
        ("one byte", b"\1"),
        (f"{IMAGE_LENGTH - 1:,} bytes", encode(fresh())[:-1]),
        (f"{IMAGE_LENGTH + 1:,} bytes", encode(fresh()) + b"\0"),
        ("a card and the rest of its buffer", encode(fresh()) + bytes(4090 - IMAGE_LENGTH)),
        (f"{IMAGE_LENGTH:,} bytes of 00", bytes(IMAGE_LENGTH)),
    ]


def held(length: int, left: int, **values) -> Card:
    return fresh(**{"held_request": some(length, 7), "seconds_left": left, **values})


def wrong_waits() -> list:
    return [
        ("pause 61", changed(fresh(), pause=61)),
        ("pause 255", changed(fresh(), pause=255)),
        ("61 wrong codes", changed(fresh(), wrong_codes=61)),
        ("61 wrong codes, a request held", changed(held(6, 1), wrong_codes=61)),
        ("255 wrong codes", changed(fresh(), wrong_codes=255)),
        *((f"{left} seconds left and nothing held", changed(fresh(), seconds_left=left)) for left in (1, 120, 121)),
        *((f"a request held with {left} seconds left", changed(held(39, 1), seconds_left=left)) for left in (0, 121, 255)),
        *((f"{length} bytes held", encode(held(length, 1))) for length in range(1, 6)),
        ("five bytes held, none left", encode(held(5, 0))),
        ("1,024 bytes held with none left", encode(held(1024, 0))),
        ("1,025 bytes held", poked(held(1024, 120), HELD + 1, 1)),
        ("1,280 bytes held", poked(held(1024, 120), HELD, 5)),
        ("65,280 bytes held", poked(held(1024, 120), HELD, 255)),
        ("a byte after the held request", poked(held(6, 1), HELD + 2 + 6, 1)),
        ("a byte at the end of the room for the held request", poked(held(1023, 1), SIGNATURES - 1, 1)),
        ("a byte where no request is held", poked(fresh(), HELD + 2, 1)),
        ("2,445 bytes: without pause and wait", without(NO_WAIT, encode(fresh()))),
    ]


def odd_waits() -> tuple:
    """Cards all the same: the ends of each range, and requests that nobody can have sent."""
    return (
        ("pause 60", fresh(pause=60)), ("60 wrong codes", fresh(wrong_codes=60)), ("six zeros held", held(6, 1, held_request=bytes(6))),
        ("six bytes held, 120 seconds left", held(6, 120)), ("1,024 bytes held, one second left", held(1024, 1)),
        ("1,024 bytes of zeros held, all at its top", held(6, 120, held_request=bytes(1024), pause=60, wrong_codes=60)),
        ("not activated, a request held", held(40, 60, activated=0, wrong_codes=60)), ("Purged, a request held", purged(
            held_request=some(7, 7), seconds_left=2, pause=1)),
    )


def no_card(script):
    for words, image in wrong_values() + wrong_bytes() + wrong_waits():
        settled = script.case(words, image, READ)
        assert settled.number == 1, words


def odd_cards(script):
    """Unlike anything that a history makes, and cards all the same."""
    rows = (
        ("Empty, number 0, with hashes and counters", fresh(signed_hashes=5, check_wallet_counter=6, card_validation_counter=7)),
        ("not activated, with hashes and data", fresh(activated=0, signed_hashes=5, user_data=b"u", issuer_data=b"i")),
        ("Loaded, Remaining at Max, signatures held", loaded(remaining=1000, last_signatures=some(64))),
        ("an issuer counter without protection or data", fresh(replay_protection=0, issuer_data_counter=9)),
        ("data and signatures of zeros", loaded(user_data=bytes(5), issuer_data=bytes(1), last_signatures=bytes(64))),
        ("an ed25519 key of zeros", loaded(ED25519, wallet_public_key=bytes(32))),
        ("codes, CID and CVC of zeros", fresh(pin1=bytes(32), pin2=bytes(32), cid=bytes(8), cvc=bytes(3))),
    )
    for words, card in rows + odd_waits():
        assert is_card(encode(card)), words
        script.case(words, card, plain(READ_CARD, (0x10, card.pin1)))


# ---------------------------------------------------------------- draws and buffers


def draws(script):
    script.use(loaded())
    for length in (0, 1, 16, 31, 33, 64):
        draw = some(length, 5)
        script.say(f"a draw of {length} bytes: read, sign, a bad request")
        for one in (READ, sign(1), BAD_REQUEST):
            script.ask(one, draw)
            script.settle(one, b"", draw)


def buffers(script):
    rooms = ((0x07FF, 0x0800, 0x1000), (0x0800, 0x07FF, 0x1000), (0x0800, 0x0800, 0x0FFF), (0x0000, 0x0800, 0x1000),
             (0x0800, 0x0000, 0x1000), (0x0800, 0x0800, 0x0000), (0x0800, 0x0800, IMAGE_LENGTH), (0x0000, 0x0000, 0x0000),
             (0x0801, 0x0802, 0x1003))
    for lent in rooms:
        script.say("buffers of {}, {} and {}: read, create, a bad request".format(*lent))
        script.use(fresh())
        script.lend(*lent)
        for one in (READ, confirmed(CREATE_WALLET), BAD_REQUEST):
            script.ask(one)
            script.settle(one, key(SECP256K1, 6) if one[1:2] == b"\xf8" else b"")
    script.lend()


# ---------------------------------------------------------------- the order among them


def mended_one_by_one(script):
    """All of it wrong, then one thing mended after the other: 1, 2, 3, a check, 4, check 13, done."""
    damaged, good = poked(fresh(), PLACE["status"], 0), encode(fresh())
    short, enough = (0x07FF, 0x07FF, 0x0FFF), (0x0800, 0x0800, 0x1000)
    rows = (
        (1, damaged, short, DRAW[:31], BAD_REQUEST, b"\2"),
        (2, good, short, DRAW[:31], BAD_REQUEST, b"\2"),
        (3, good, enough, DRAW[:31], BAD_REQUEST, b"\2"),
        (0, good, enough, DRAW, BAD_REQUEST, b"\2"),
        (4, good, enough, DRAW, WRITE, b"\2"),
        (0, good, enough, DRAW, WRITE, b"\0"),
        (0, good, enough, DRAW, WRITE, b"\1"),
    )
    for number, image, lent, draw, one, given in rows:
        script.use(image)
        script.lend(*lent)
        script.ask(one, draw)
        assert script.settle(one, given, draw).number == number
    script.lend()


def each_against_the_later(script):
    """One thing wrong, with one later thing wrong: the earlier decides."""
    damaged, good = poked(fresh(), PLACE["status"], 0), encode(fresh())
    wrongs = ("image", "buffers", "draw", "request", "answers")
    for place, earlier in enumerate(wrongs):
        for later in wrongs[place + 1 :]:
            wrong = (earlier, later)
            script.say(f"wrong: {earlier} and {later}")
            script.use(damaged if "image" in wrong else good)
            script.lend(*((0x07FF, 0x07FF, 0x1000) if "buffers" in wrong else ()))
            one = plain(WRITE_ISSUER_DATA, *CONFIRM) if "request" in wrong else WRITE
            draw = DRAW + b"\0" if "draw" in wrong else DRAW
            script.ask(one, draw)
            script.settle(one, b"\2" if "answers" in wrong else b"\1", draw)
    script.lend()


GROUPS = (
    ("answers of wrong lengths", wrong_lengths),
    ("answers of the right length", wrong_contents),
    ("answers that are not looked at", answers_not_looked_at),
    ("images that are no card", no_card),
    ("odd cards", odd_cards),
    ("draws", draws),
    ("lent buffers", buffers),
    ("everything wrong, mended one by one", mended_one_by_one),
    ("one thing wrong and a later one", each_against_the_later),
)

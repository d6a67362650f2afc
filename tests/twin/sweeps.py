"""What is gone through place by place: images, lent buffers, codes, waits, confirmations, sheets."""

from itertools import product

from twin import card as twin
from twin.bench import (
    ACCESS, ACTIVATE_CARD, CID, CURVES, CVC, DEFAULT_PIN1, DEFAULT_PIN2, NAMES, OWN_FIELDS, PIN1, PIN2, READ_CARD, VALIDATE_CARD, Provider,
    confirmation, confirmed, fresh, full, off_by_last, plain, ready,
)
from twin.chance import any_card, not_activated
from twin.chance_requests import good_draft
from twin.chance_sheets import damaged_sheet, good_sheet
from twin.image import LONGEST_PAUSE, LONGEST_REQUEST, LONGEST_WAIT, MOST_WRONG_CODES, PLACE, SHORTEST_REQUEST, Card, encode
from twin.pair import ROOMS, Pair
from twin.request import Tag


def read_request(card: Card) -> bytes:
    return plain(READ_CARD, (Tag.PIN1, card.pin1))


def poked(image: bytes, at: int, value: int) -> bytes:
    return image[:at] + bytes([value]) + image[at + 1 :]


def images(pair: Pair):
    """One card by chance."""
    every_byte(pair, any_card(pair.chance))


def images_not_activated(pair: Pair):
    every_byte(pair, not_activated(pair.chance))


def images_waiting(pair: Pair):
    """One that holds a request, mostly of bytes by chance."""
    card, chance = any_card(pair.chance), pair.chance
    held = chance.choice((read_request(card), chance.randbytes(chance.near_ends(SHORTEST_REQUEST, LONGEST_REQUEST))))
    every_byte(pair, card._replace(seconds_left=chance.near_ends(1, LONGEST_WAIT), held_request=held))


# Where every value is tried: pause, count, seconds left, and the length of the held request.
OF_THE_WAIT = {PLACE["pause"], PLACE["wrong_codes"], PLACE["seconds_left"], PLACE["held_request"], PLACE["held_request"] + 1}


def every_byte(pair: Pair, card: Card):
    """Every byte of its image set to some other values, those of the wait to all of them."""
    chance = pair.chance
    image, request, draw = encode(card), read_request(card), chance.randbytes(32)
    for at, old in enumerate(image):
        values = set(range(256)) if at in OF_THE_WAIT else {0, 1, 2, 255, old ^ 1, old ^ 128, chance.randrange(256)}
        for value in values - {old}:
            tried = poked(image, at, value)
            pair.reached.times["image", pair.ask(tried, request, draw, ROOMS[0]).number] += 1
        pair.settle(tried, request, draw, b"", *ROOMS[1:])


def image_lengths(pair: Pair):
    """A card's image cut off, or with bytes after it: every length up to 4,096."""
    card = any_card(pair.chance)
    image, request, draw = encode(card), read_request(card), pair.chance.randbytes(32)
    for length in range(4097):
        tried = (image + (bytes if length % 2 else pair.chance.randbytes)(4096))[:length]
        pair.ask(tried, request, draw, ROOMS[0])
        pair.settle(tried, request, draw, b"", *ROOMS[1:])
        pair.power_off(tried, ROOMS[2])


def passing(pair: Pair) -> tuple:
    """A card, and a request of its that passes the checks and need not wait, with fitting answers."""
    while True:
        card = any_card(pair.chance)
        ins = pair.chance.choice(list(NAMES))
        image, draw = encode(card), pair.chance.randbytes(32)
        request = good_draft(pair.chance, card, ins).written(pair.chance)
        asked = twin.ask(image, request, draw)
        if asked.word == 0x9000:
            return image, request, draw, Provider().answers(asked.questions)


def rooms(pair: Pair):
    """Every short length of every lent buffer, on requests that pass the checks; then lengths that are enough."""
    enough = [room + 64 for room in ROOMS]
    for length in range(enough[2]):
        if length % 8 == 0:
            image, request, draw, answers = passing(pair)
        if length < enough[0]:
            pair.ask(image, request, draw, length)
            pair.settle(image, request, draw, answers, length, enough[2])
            pair.settle(image, request, draw, answers, length, length)
        pair.settle(image, request, draw, answers, enough[1], length)
        pair.power_off(image, length)


def sendings(tag: int, code: bytes, *defaults: bytes) -> list:
    """A code right, wrong, too short, too long, empty, a default, absent: the fields that it is sent in."""
    return [((tag, sent),) for sent in (code, off_by_last(code), code[:-1], code + b"\0", b"", *defaults)] + [()]


def codes(pair: Pair):
    """Every command with PIN1, PIN2 and CVC sent in every way, with the fields that it takes and without, while another is held."""
    curve, draw = pair.chance.choice(list(CURVES)), pair.chance.randbytes(32)
    sent = list(product(sendings(Tag.PIN1, PIN1, DEFAULT_PIN1), sendings(Tag.PIN2, PIN2, DEFAULT_PIN2), sendings(Tag.CVC, CVC)))
    for ins, own in OWN_FIELDS.items():
        image = encode(ready(ins, curve, full, cvc_used=1, seconds_left=1, held_request=bytes(6)))
        for (pin1, pin2, cvc), fields in product(sent, (own, ())):
            request = plain(ins, *pin1, (Tag.CID, CID), *pin2, *cvc, *fields)
            asked = pair.ask(image, request, draw, ROOMS[0])
            pair.settle(image, request, draw, Provider().answers(asked.questions), *ROOMS[1:])


def waits(pair: Pair):
    """Every wait from none to 120 seconds, made of pause and wrong codes by chance, to its end and once more."""
    request = confirmed(VALIDATE_CARD)
    for seconds in range(LONGEST_WAIT + 1):
        pause = pair.chance.randint(max(0, seconds - MOST_WRONG_CODES), min(seconds, LONGEST_PAUSE))
        image = encode(fresh(pair.chance.choice(list(CURVES)), pause=pause, wrong_codes=seconds - pause))
        for sending in range(seconds + 2):
            draw = pair.chance.randbytes(32)
            answers = Provider().answers(pair.ask(image, request, draw, ROOMS[0]).questions)
            settled = pair.settle(image, request, draw, answers, *ROOMS[1:])
            over = sending == seconds or sending > seconds and pause == 0
            assert settled.word == (0x9000 if over else 0x9789), (seconds, sending)
            image = settled.image


def confirmations(pair: Pair):
    """ACTIVATE_CARD with every Reset_PIN1 of a byte and of other lengths, every length of the signature, every answer."""
    draw, right = pair.chance.randbytes(32), dict(confirmation())
    every = [bytes([value]) for value in range(256)] + [b"", b"\0\0", b"\0\1", b"\1\0", b"\1\1", bytes(64)]
    fields = [right | {Tag.RESET_PIN1: reset} for reset in every]
    fields += [right | {Tag.ACTIVATION_SIGNATURE: bytes(length)} for length in range(300)]
    for activated in (0, 1):
        image = encode(fresh(pair.chance.choice(list(CURVES)), activated=activated))
        sent = [plain(ACTIVATE_CARD, *ACCESS, *one.items()) for one in fields]
        for request, answer in [(one, b"\1") for one in sent] + [(sent[0], one) for one in every]:
            pair.ask(image, request, draw, ROOMS[0])
            pair.settle(image, request, draw, answer, *ROOMS[1:])


def sheets(pair: Pair):
    """Good sheets, and three times as many damaged ones."""
    for _ in range(500):
        pair.personalise(good_sheet(pair.chance), ROOMS[2] + pair.chance.choice((0, 1, 99)))
        for _ in range(3):
            pair.personalise(damaged_sheet(pair.chance), ROOMS[2])


def sheet_bytes(pair: Pair):
    """A sheet cut at every place, without each byte, with each byte another or doubled; every short buffer for its image."""
    sheet = good_sheet(pair.chance)
    for at in range(len(sheet)):
        pair.personalise(sheet[:at], ROOMS[2])
        pair.personalise(sheet[:at] + sheet[at + 1 :], ROOMS[2])
        pair.personalise(sheet[: at + 1] + sheet[at:], ROOMS[2])
        for value in (0, 9, 10, 13, 32, 48, 65, 97, sheet[at] ^ 32, pair.chance.randrange(256)):
            pair.personalise(poked(sheet, at, value), ROOMS[2])
    for length in range(ROOMS[2]):
        pair.personalise(sheet, length)
        if length % 64 == 0:
            pair.personalise(damaged_sheet(pair.chance), length)

"""Taps by chance, in histories: each tap, and each power-off, on the image that the last one left."""

from typing import NamedTuple

from twin.card import SW_NEED_PAUSE
from twin.chance import Chance, any_card
from twin.chance_requests import any_command, good_draft, next_request
from twin.image import IMAGE_LENGTH, LOADED, LONGEST_REQUEST, PLACE, Card, decode, encode
from twin.pair import ROOMS, Pair
from twin.reached_delay import Paced
from twin.request import number

TAPS_IN_A_JOB = 2000


def answers_by_chance(chance: Chance, questions: bytes) -> bytes:
    """Answers that fit the questions, the issuer's word mostly yes, and a few that do not fit."""
    given = []
    while questions:
        kind, curve, length = questions[0], questions[3], number(questions[4:6])
        word = bytes([chance.flag(0.8)])
        given.append({1: chance.public_key(curve), 5: word, 6: word}.get(kind) or chance.randbytes(64))
        questions = questions[6 + length :]
    return wrong_answers(chance, b"".join(given)) if chance.often(0.08) else b"".join(given)


def wrong_answers(chance: Chance, answers: bytes) -> bytes:
    """Too short, too long, or with another first byte, which may fit after all."""
    cut = answers[: chance.randrange(len(answers) + 1)]
    return chance.choice((cut, answers[:-1], answers + chance.randbytes(chance.choice((1, 64))),
                          bytes([chance.choice((0, 2, 3, 5, 255))]) + answers[1:]))


class Lent(NamedTuple):
    """What a tap is lent beside the request: mostly enough of everything."""

    image: bytes
    draw: bytes
    rooms: tuple


def lent_by_chance(chance: Chance, image: bytes) -> Lent:
    draw, rooms = chance.randbytes(32), tuple(room + chance.choice((0, 0, 1, 300)) for room in ROOMS)
    if chance.often(0.97):
        return Lent(image, draw, rooms)
    wrong = [chance.often(0.6) for _ in range(3)]
    return Lent(
        damaged_image(chance, image) if wrong[0] else image,
        chance.randbytes(chance.choice((0, 16, 31, 33, 64, chance.randrange(64)))) if wrong[1] else draw,
        tuple(chance.choice((room, room - 1, chance.randrange(room))) for room in ROOMS) if wrong[2] else rooms,
    )


def damaged_image(chance: Chance, image: bytes) -> bytes:
    """One byte another, mostly among the values before the data or of the wait, signatures where no wallet made them, or another length."""
    card = decode(image)
    if card.status != LOADED and chance.often(0.3):
        return encode(card._replace(last_signatures=chance.signatures(least=1)))
    if chance.often(0.1):
        return chance.choice((image[:-1], image + b"\0", b"", image[: chance.randrange(IMAGE_LENGTH)]))
    values, wait = (PLACE["curve"], PLACE["user_data"] + 2), (PLACE["wrong_codes"], PLACE["held_request"] + 10)
    at = chance.randrange(*chance.choices((values, wait, (0, IMAGE_LENGTH)), (6, 1, 3))[0])
    return image[:at] + bytes([chance.choice((0, 1, 2, 3, 255, chance.randrange(256)))]) + image[at + 1 :]


def tap(pair: Pair, card: Card, image: bytes) -> bytes:
    """Both calls on one request. Returns the image that the card is left with."""
    chance = pair.chance
    request, lent = next_request(chance, card), lent_by_chance(chance, image)
    asked = pair.ask(lent.image, request, lent.draw, lent.rooms[0])
    if asked.reason or asked.word == SW_NEED_PAUSE:
        answers = chance.randbytes(chance.choice((0, 0, 1, 64, 65, 700)))
    else:
        answers = answers_by_chance(chance, asked.questions)
    settled = pair.settle(lent.image, request, lent.draw, answers, *lent.rooms[1:])
    if settled.number == 1:
        pair.reached.no_card(lent.image)
    if settled.number in (0, 4):
        pair.reached.paced(Paced(decode(lent.image), request, settled))
    return image if settled.image is None else settled.image


def power_off(pair: Pair, image: bytes) -> bytes:
    """Returns the image that the card is left with."""
    lent = lent_by_chance(pair.chance, image)
    off = pair.power_off(lent.image, lent.rooms[2])
    pair.reached.powered_off(lent.image, off)
    return image if off.image is None else off.image


def first_card(chance: Chance) -> Card:
    """Any card, now and then with a request held that it takes."""
    card = any_card(chance)
    if chance.often(0.9):
        return card
    request = good_draft(chance, card, any_command(chance, card)).written(chance)
    return card._replace(held_request=request[:LONGEST_REQUEST], seconds_left=chance.near_ends(1, 5))


def with_codes(chance: Chance, card: Card, first: Card) -> Card:
    """The card for which a request is made: now and then with the PIN1 that the history began with."""
    return card._replace(pin1=first.pin1) if chance.often(0.03) else card


def histories(pair: Pair):
    """Cards by chance, each tapped some dozens of times, every tap on the image that the last one left."""
    left = TAPS_IN_A_JOB
    while left:
        first = first_card(pair.chance)
        image = encode(first)
        pair.reached.begun()
        for _ in range(min(left, pair.chance.randint(10, 60))):
            image = tap(pair, with_codes(pair.chance, decode(image), first), image)
            left -= 1
            if pair.chance.often(0.03):
                image = power_off(pair, image)

"""The practice card a second time, as a measure for the proved one: document 01 over bytes, in plain Python.

`ask` and `settle` are the two calls, `power_off` is what happens when the field is gone, `is_card` tells images from
other bytes, `personalise` reads a sheet. No cryptography is done: the provider's answers come in as bytes. To read on in
the order of document 01: image.py, request.py, checks.py, questions.py, commands.py, sheet.py; delay.py is Ask 7.
"""

from typing import NamedTuple, Optional

from twin.checks import command_of, first_failure
from twin.delay import BEFORE_THE_WAIT, UNITS_A_SECOND, after_refusal, cleared, dropped, holding, seconds_to_wait
from twin.image import Card, decode, encode, is_card
from twin.questions import cut, provider_says_no
from twin.request import Tag, Tap, big_endian, field
from twin.sheet import IMAGE_ROOM, personalise

__all__ = ["is_card", "ask", "settle", "power_off", "personalise", "Asked", "Settled"]

SW_ERROR_PROCESSING_COMMAND = 0x6286
SW_NEED_PAUSE = 0x9789
QUESTIONS_ROOM = 2048
RESPONSE_ROOM = 2048
DRAW_LENGTH = 32


class Asked(NamedTuple):
    number: int
    reason: int = 0
    word: int = 0
    questions: bytes = b""


class Settled(NamedTuple):
    """`image` is the next image, or None where the call leaves its buffers alone."""

    number: int
    reason: int = 0
    word: int = 0
    response: bytes = b""
    image: Optional[bytes] = None


def number_before_checks(image: bytes, enough_room: bool, draw: bytes) -> int:
    if not is_card(image):
        return 1
    if not enough_room:
        return 2
    return 3 if len(draw) != DRAW_LENGTH else 0


def ask(image: bytes, request: bytes, draw: bytes, room: int = QUESTIONS_ROOM) -> Asked:
    early = number_before_checks(image, room >= QUESTIONS_ROOM, draw)
    if early:
        return Asked(early)
    tap = Tap(decode(image), request, draw)
    reason, word = first_failure(tap)
    if reason in BEFORE_THE_WAIT:
        return Asked(0, reason, word)
    if seconds_to_wait(tap):
        return Asked(0, 0, SW_NEED_PAUSE)
    if reason:
        return Asked(0, reason, word)
    return Asked(0, 0, word, b"".join(q.encoded() for q in command_of(tap).questions(tap)))


def settle(image: bytes, request: bytes, draw: bytes, answers: bytes,
           response_room: int = RESPONSE_ROOM, next_room: int = IMAGE_ROOM) -> Settled:
    early = number_before_checks(image, response_room >= RESPONSE_ROOM and next_room >= IMAGE_ROOM, draw)
    if early:
        return Settled(early)
    tap = Tap(decode(image), request, draw)
    reason, word = first_failure(tap)
    if reason in BEFORE_THE_WAIT:
        return refused(reason, word, after_refusal(tap, reason))
    seconds = seconds_to_wait(tap)
    if seconds:
        return paused(seconds, holding(tap.card, request, seconds))
    return carried_out(tap, reason, word, answers)


def carried_out(tap: Tap, reason: int, word: int, answers: bytes) -> Settled:
    """Once there is nothing to wait for. Whatever comes of it but number 4 leaves nothing held and nothing counted."""
    tap.card = cleared(tap.card)
    if reason:
        return refused(reason, word, tap.card)
    command = command_of(tap)
    questions = command.questions(tap)
    parts = cut(answers, questions)
    if parts is None:
        return Settled(4)
    if provider_says_no(questions, parts):
        return refused(13, SW_ERROR_PROCESSING_COMMAND, tap.card)
    done = command.perform(tap, parts)
    response = field(Tag.CID, tap.card.cid) + done.body + big_endian(done.word, 2)
    return Settled(0, 0, done.word, response, encode(done.card))


def refused(reason: int, word: int, card: Card) -> Settled:
    return Settled(0, reason, word, big_endian(word, 2), encode(card))


def paused(seconds: int, card: Card) -> Settled:
    """No check has refused, so the reason is 0. The CID is not told."""
    left = field(Tag.PAUSE, big_endian(seconds * UNITS_A_SECOND, 2))
    return Settled(0, 0, SW_NEED_PAUSE, left + big_endian(SW_NEED_PAUSE, 2), encode(card))


def power_off(image: bytes, next_room: int = IMAGE_ROOM) -> Settled:
    """What is held is lost, what is counted is not. There is no draw, and nothing is answered."""
    if not is_card(image):
        return Settled(1)
    if next_room < IMAGE_ROOM:
        return Settled(2)
    return Settled(0, image=encode(dropped(decode(image))))

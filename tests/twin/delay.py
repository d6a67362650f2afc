"""The security delay of Ask 7: what a wrong code costs, how long a request has to wait, and what the card keeps of it."""

from twin.checks import command_of, pin2_differs
from twin.commands import DEFAULT_PIN1, DEFAULT_PIN2
from twin.image import MOST_WRONG_CODES, Card
from twin.request import Tag, Tap

BEFORE_THE_WAIT = range(1, 11)  # the checks
UNITS_A_SECOND = 100  # of 10 ms


def over_a_wrong_code(tap: Tap, check: int) -> bool:
    """Whether the check that refused did so over a code that is there, wrong, and not the default one."""
    if check == 6:
        return tap.value(Tag.PIN1) not in (None, DEFAULT_PIN1)
    if check == 10 and pin2_differs(tap):
        return tap.value(Tag.PIN2) not in (None, DEFAULT_PIN2)
    return check == 10 and tap.has(Tag.CVC)


def seconds_to_wait(tap: Tap) -> int:
    """Of a request that has passed check 10. The held one has had a second more."""
    card = tap.card
    if tap.request == card.held_request:
        return card.seconds_left - 1
    return card.wrong_codes + (card.pause if command_of(tap).needs_pin2(tap) else 0)


def dropped(card: Card) -> Card:
    return card._replace(seconds_left=0, held_request=b"")


def counted(card: Card) -> Card:
    return card._replace(wrong_codes=min(card.wrong_codes + 1, MOST_WRONG_CODES))


def holding(card: Card, request: bytes, seconds: int) -> Card:
    return card._replace(seconds_left=seconds, held_request=request)


def cleared(card: Card) -> Card:
    return dropped(card)._replace(wrong_codes=0)


def after_refusal(tap: Tap, check: int) -> Card:
    """What a refusal by checks 1 to 10 leaves."""
    return counted(dropped(tap.card)) if over_a_wrong_code(tap, check) else dropped(tap.card)

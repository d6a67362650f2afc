"""Checks 1 to 12 in their order, each with its status word. A check counts on all before it."""

from twin.commands import COMMANDS, SW_PROCESS_COMPLETED, Command
from twin.request import Tag, Tap

SW_WRONG_LENGTH = 0x6700
SW_NEED_ENCRYPTION = 0x6982
SW_INVALID_STATUS = 0x6985
SW_INVALID_PARAMS = 0x6A86
SW_INS_NOT_SUPPORTED = 0x6D00
SW_CLA_NOT_SUPPORTED = 0x6E00


def command_of(tap: Tap) -> Command:
    return COMMANDS[tap.ins]


def wrong_length(tap: Tap) -> bool:
    return tap.payload is None


def wrong_class(tap: Tap) -> bool:
    return tap.request[0] != 0x00


def not_listed(tap: Tap) -> bool:
    return tap.ins not in COMMANDS


def encryption_named(tap: Tap) -> bool:
    return tap.request[3] in (0x01, 0x02)


def parameters_not_zero(tap: Tap) -> bool:
    return tap.request[2:4] != b"\0\0"


def malformed(tap: Tap) -> bool:
    return tap.values is None


def stands_twice(tap: Tap) -> bool:
    """Whether or not this card needs the value."""
    return any(tap.stands_twice(tag) for tag in command_of(tap).reads)


def pin1_differs(tap: Tap) -> bool:
    return tap.value(Tag.PIN1) != tap.card.pin1


def cid_differs(tap: Tap) -> bool:
    return not command_of(tap).ignores_cid and tap.value(Tag.CID) != tap.card.cid


def not_activated(tap: Tap) -> bool:
    return not tap.card.activated and not command_of(tap).before_activation


def status_forbids(tap: Tap) -> bool:
    return tap.card.status not in command_of(tap).allowed_in


def pin2_differs(tap: Tap) -> bool:
    return command_of(tap).needs_pin2(tap) and tap.value(Tag.PIN2) != tap.card.pin2


def cvc_differs(tap: Tap) -> bool:
    return command_of(tap).asks_cvc and bool(tap.card.cvc_used) and tap.value(Tag.CVC) != tap.card.cvc


def fields_do_not_fit(tap: Tap) -> bool:
    return not command_of(tap).fields_fit(tap)


def conditions_fail(tap: Tap) -> bool:
    return not command_of(tap).condition(tap)


CHECKS = (
    (1, SW_WRONG_LENGTH, wrong_length),
    (2, SW_CLA_NOT_SUPPORTED, wrong_class),
    (3, SW_INS_NOT_SUPPORTED, not_listed),
    (4, SW_NEED_ENCRYPTION, encryption_named),
    (4, SW_INVALID_PARAMS, parameters_not_zero),
    (5, SW_INVALID_PARAMS, malformed),
    (5, SW_INVALID_PARAMS, stands_twice),
    (6, SW_INVALID_PARAMS, pin1_differs),
    (7, SW_INVALID_PARAMS, cid_differs),
    (8, SW_INVALID_STATUS, not_activated),
    (9, SW_INVALID_STATUS, status_forbids),
    (10, SW_INVALID_PARAMS, pin2_differs),
    (10, SW_INVALID_PARAMS, cvc_differs),
    (11, SW_INVALID_PARAMS, fields_do_not_fit),
    (12, SW_INVALID_STATUS, conditions_fail),
)


def first_failure(tap: Tap) -> tuple:
    """Number and status word of the first check that fails, or 0 and 9000."""
    for check, word, fails in CHECKS:
        if fails(tap):
            return check, word
    return 0, SW_PROCESS_COMPLETED

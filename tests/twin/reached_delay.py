"""What the taps by chance have to reach of the security delay: each pace of a request, what drops a held one, each outcome of a power-off."""

from typing import Callable, NamedTuple, Optional

from twin.bench import DEFAULT_PIN1, DEFAULT_PIN2
from twin.card import SW_NEED_PAUSE, Settled
from twin.image import LONGEST_REQUEST, MOST_WRONG_CODES, Card, decode
from twin.request import fields_of, payload_of

POWER_OFFS = {0: "power-off, done", 1: "power-off of what is no card", 2: "power-off with a short buffer"}


class Paced(NamedTuple):
    """A tap on a card, whatever came of it but the numbers 1 to 3."""

    before: Card
    request: bytes
    settled: Settled

    @property
    def after(self) -> Card:
        return self.before if self.settled.image is None else decode(self.settled.image)

    @property
    def reason(self) -> int:
        return self.settled.reason

    @property
    def waits(self) -> bool:
        return self.settled.word == SW_NEED_PAUSE

    @property
    def refused(self) -> bool:
        return 1 <= self.reason <= 10

    @property
    def goes(self) -> bool:
        return self.settled.number == 0 and not self.waits and not self.refused

    @property
    def held(self) -> bool:
        return self.before.held_request != b""

    @property
    def again(self) -> bool:
        return self.held and self.request == self.before.held_request

    @property
    def counted(self) -> bool:
        return self.after.wrong_codes > self.before.wrong_codes

    def code(self, tag: int) -> Optional[bytes]:
        return fields_of(payload_of(self.request)).get(tag)

    def over(self, tag: int) -> bool:
        """Whether it was refused over this code."""
        if tag == 0x10 or self.reason != 10:
            return tag == 0x10 and self.reason == 6
        return (self.code(0x11) != self.before.pin2) == (tag == 0x11)

    def waits_for(self, count: bool, pause: bool) -> bool:
        """At a first sending: for wrong codes, for the pause, or for both."""
        left = self.after.seconds_left
        return self.waits and not self.again and (self.before.wrong_codes > 0, left > self.before.wrong_codes) == (count, pause)


CODES = {0x10: "PIN1", 0x11: "PIN2", 0x19: "CVC"}
DEFAULTS = {0x10: DEFAULT_PIN1, 0x11: DEFAULT_PIN2}
PACES: dict[str, Callable[[Paced], bool]] = {
    "refused, nothing counted": lambda one: one.refused and not one.counted,
    **{f"refused over a wrong {name}, and counted": lambda one, tag=tag: one.counted and one.over(tag) for tag, name in CODES.items()},
    **{f"refused without {name}, and not counted": lambda one, tag=tag: one.over(tag) and one.code(tag) is None and not one.counted
       for tag, name in CODES.items()},
    **{f"refused over the default {CODES[tag]}, and not counted": lambda one, tag=tag: one.over(tag) and one.code(tag) == DEFAULTS[tag]
       and not one.counted for tag in DEFAULTS},
    "counted up to 60": lambda one: one.counted and one.after.wrong_codes == MOST_WRONG_CODES,
    "counted no further than 60": lambda one: one.before.wrong_codes == MOST_WRONG_CODES and one.over(0x10)
    and one.code(0x10) not in (None, DEFAULT_PIN1),
    "waits, nothing held before": lambda one: one.waits and not one.held,
    "waits, another held before": lambda one: one.waits and one.held and not one.again,
    "waits, a second less": lambda one: one.waits and one.again and one.after.seconds_left == one.before.seconds_left - 1,
    "waits for wrong codes": lambda one: one.waits_for(True, False),
    "waits for the pause": lambda one: one.waits_for(False, True),
    "waits for both": lambda one: one.waits_for(True, True),
    "waits, a request of 1,024 bytes": lambda one: one.waits and len(one.request) == LONGEST_REQUEST,
    "goes on, nothing held before": lambda one: one.goes and not one.held,
    "goes on, another held before": lambda one: one.goes and one.held and not one.again,
    "goes on after its wait": lambda one: one.goes and one.again,
    "goes on after its wait, wrong codes forgotten": lambda one: one.goes and one.again and one.before.wrong_codes > 0,
    **{f"refused by check {check} after its wait": lambda one, check=check: one.goes and one.again and one.reason == check
       for check in (11, 12, 13)},
    "number 4 after its wait": lambda one: one.settled.number == 4 and one.again,
    "number 4 while another is held": lambda one: one.settled.number == 4 and one.held and not one.again,
    **{f"refused by check {check} while one is held": lambda one, check=check: one.reason == check and one.held for check in range(1, 11)},
    "the held request refused": lambda one: one.refused and one.again,
}
OFF_HELD, OFF_COUNTED = "power-off with a request held", "power-off with wrong codes counted"
NAMES_OF_PACES = (*PACES, OFF_HELD, OFF_COUNTED, *POWER_OFFS.values())


def paces_of(one: Paced) -> list:
    return [name for name, test in PACES.items() if test(one)]


def power_offs_of(image: bytes, off: Settled) -> list:
    names = [POWER_OFFS[off.number]]
    if off.number == 0:
        card = decode(image)
        names += [OFF_HELD] * (card.held_request != b"") + [OFF_COUNTED] * (card.wrong_codes > 0)
    return names

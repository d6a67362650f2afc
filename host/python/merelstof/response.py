"""What a card answers: fields, and after them the status word."""

from typing import NamedTuple, Optional, Tuple, Union

from .names import DONE, NEED_PAUSE, REASONS, TAGS, word_name

UNITS_A_SECOND = 100  # Pause counts in 10 ms


class Field(NamedTuple):
    tag: int
    name: str
    value: bytes

    def __repr__(self):
        return f"{self.tag:02X} {self.name} {self.value.hex().upper()}"


def fields_of(payload: bytes) -> Tuple[Field, ...]:
    """Tag, length, value, one after the other. A length above 254 takes FF and two bytes."""
    fields, at = [], 0
    while at < len(payload):
        start, length = at + 2, payload[at + 1]
        if length == 0xFF:
            start, length = at + 4, int.from_bytes(payload[at + 2 : at + 4], "big")
        fields.append(Field(payload[at], TAGS.get(payload[at], "?"), payload[start : start + length]))
        at = start + length
    return tuple(fields)


class Response:
    """`bytes` is the response as it came. A field's value stands under its tag and under its name: response["Remaining"].

    `reason` is the number of the check that refused, 0 where none did. No byte of a response tells it: of one that is made from its
    bytes alone, as a reader gives them, it is None; and responses with the same bytes are equal, whatever their reasons.
    """

    def __init__(self, response: bytes, ins: int = 0, reason: Optional[int] = None):
        self.bytes = response
        self.reason = reason
        self.word = int.from_bytes(response[-2:], "big")
        self.name = word_name(self.word, ins)
        self.fields = fields_of(response[:-2])

    @property
    def ok(self) -> bool:
        return self.word in DONE

    @property
    def paused(self) -> bool:
        """Not yet: the card holds the request, and its holder has to wait. The same bytes are to be sent again; `Card.tap` can do that."""
        return self.word == NEED_PAUSE

    @property
    def seconds_left(self) -> Optional[int]:
        """How long, where the response is paused; else None. This card's seconds are whole, another's are rounded up."""
        return -(-self.number("Pause") // UNITS_A_SECOND) if self.paused and "Pause" in self else None

    @property
    def refused(self) -> bool:
        """Nothing was done. The card holds no request now, and may have counted a wrong code; all else is as it was before."""
        return not self.ok and not self.paused

    @property
    def why(self) -> str:
        """The reason in words; empty where there is none, or none is known."""
        return REASONS.get(self.reason, "?") if self.reason else ""

    def __getitem__(self, key: Union[int, str]) -> bytes:
        for field in self.fields:
            if key in (field.tag, field.name):
                return field.value
        raise KeyError(f"{key:02X}" if isinstance(key, int) else key)

    def __contains__(self, key: Union[int, str]) -> bool:
        return any(key in (field.tag, field.name) for field in self.fields)

    def number(self, key: Union[int, str]) -> int:
        return int.from_bytes(self[key], "big")

    def __eq__(self, other) -> bool:
        return self.bytes == other.bytes if isinstance(other, Response) else NotImplemented

    def __hash__(self) -> int:
        return hash(self.bytes)

    def __repr__(self) -> str:
        check = f", check {self.reason}: {self.why}" if self.reason else ""
        wait = "" if self.seconds_left is None else f", {self.seconds_left} s left"
        return f"<Response {self.word:04X} {self.name}{check}{wait}{''.join(f', {field}' for field in self.fields)}>"

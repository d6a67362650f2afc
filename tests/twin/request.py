"""Requests and their fields: Lc, payload, tag, length, value."""

from typing import Optional

from twin.image import LONGEST_REQUEST, SHORTEST_REQUEST, Card


class Tag:
    CID = 0x01
    STATUS = 0x02
    CARD_SIGNATURE = 0x04
    CURVE_ID = 0x05
    PIN1 = 0x10
    PIN2 = 0x11
    NEW_PIN1 = 0x12
    NEW_PIN2 = 0x13
    PUBLIC_KEY_CHALLENGE = 0x14
    PUBLIC_KEY_SALT = 0x15
    CHALLENGE = 0x16
    SALT = 0x17
    CARD_VALIDATION_COUNTER = 0x18
    CVC = 0x19
    PAUSE = 0x1C
    MODE = 0x23
    USER_DATA = 0x2A
    USER_PROTECTED_DATA = 0x2B
    USER_COUNTER = 0x2C
    USER_PROTECTED_COUNTER = 0x2D
    ISSUER_DATA = 0x32
    ISSUER_DATA_SIGNATURE = 0x33
    ACTIVATION_SIGNATURE = 0x34
    ISSUER_DATA_COUNTER = 0x35
    RESET_PIN1 = 0x36
    IS_ACTIVATED = 0x3A
    ACTIVATION_SEED = 0x3B
    HASH_ARRAY = 0x50
    HASH_SIZE = 0x51
    WALLET_PUBLIC_KEY = 0x60
    WALLET_SIGNATURE = 0x61
    REMAINING = 0x62
    SIGNED_HASHES = 0x63
    CHECK_WALLET_COUNTER = 0x64


def big_endian(value: int, length: int) -> bytes:
    return value.to_bytes(length, "big")


def number(value: bytes) -> int:
    return int.from_bytes(value, "big")


def payload_of(request: bytes) -> Optional[bytes]:
    """The payload, or None where the length or Lc is wrong."""
    if not SHORTEST_REQUEST <= len(request) <= LONGEST_REQUEST:
        return None
    start = 7 if request[4] == 0 else 5
    length = number(request[5:7]) if request[4] == 0 else request[4]
    return request[start:] if length >= 1 and start + length == len(request) else None


def values_of(payload: bytes) -> Optional[dict]:
    """The values of every tag in their order, or None where the payload does not end at a field's end."""
    values, at = {}, 0
    while at < len(payload):
        start, length = at + 2, number(payload[at + 1 : at + 2])
        if length == 0xFF:
            start, length = at + 4, number(payload[at + 2 : at + 4])
        if start + length > len(payload):
            return None
        values.setdefault(payload[at], []).append(payload[start : start + length])
        at = start + length
    return values


def fields_of(payload: bytes) -> Optional[dict]:
    """The first value of every tag, or None as above."""
    values = values_of(payload)
    return None if values is None else {tag: first for tag, (first, *_) in values.items()}


def field(tag: int, value: bytes) -> bytes:
    """A field of a response: the short form of the length whenever it fits."""
    length = big_endian(len(value), 1) if len(value) < 0xFF else b"\xff" + big_endian(len(value), 2)
    return big_endian(tag, 1) + length + value


class Tap:
    """A request on its way through the checks. Each property counts on the checks before the one that reads it."""

    def __init__(self, card: Card, request: bytes, draw: bytes):
        self.card, self.request = card, request
        self.salt, self.key_salt = draw[:16], draw[16:]
        self.payload = payload_of(request)
        self.values = None if self.payload is None else values_of(self.payload)

    @property
    def ins(self) -> int:
        return self.request[1]

    def has(self, tag: int) -> bool:
        return tag in self.values

    def stands_twice(self, tag: int) -> bool:
        """Two times or more."""
        return self.has(tag) and len(self.values[tag]) > 1

    def value(self, tag: int) -> Optional[bytes]:
        """The first; from check 6 on it is the only one, if the command reads this tag."""
        return self.values[tag][0] if self.has(tag) else None

    def length(self, tag: int) -> int:
        """The length of a field, -1 where it is absent."""
        return len(self.values[tag][0]) if self.has(tag) else -1

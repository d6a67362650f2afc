"""The thirteen commands as requests: bytes for Card.tap, or for a card in a reader.

The first argument says whose codes go in: a Card, or Codes of one's own. Each may be given anew by its name, or be left out by None:

    sign(card, [hash])                             the card's own codes
    sign(card, [hash], pin2=sha256("1234"))        another PIN2, which the card will refuse
    create_wallet(Codes(cid, pin1, pin2))          no card at hand
    read_card(card, pin1=None)                     no PIN1

A code is what goes over the air: PIN1 and PIN2 as the SHA-256 of what the user types.
"""

import hashlib
from typing import NamedTuple, Optional, Sequence, Union

from .view import View

HASH_SIZE = 32


class Codes(NamedTuple):
    cid: Optional[bytes] = None
    pin1: Optional[bytes] = None
    pin2: Optional[bytes] = None
    cvc: Optional[bytes] = None


Source = Union[View, Codes]
CODE_TAGS = {"pin1": 0x10, "cid": 0x01, "pin2": 0x11, "cvc": 0x19}
# Which codes a command takes beside PIN1.
WITH_CID = ("pin1", "cid")
WITH_PIN2 = (*WITH_CID, "pin2")
WITH_CVC = (*WITH_PIN2, "cvc")


def sha256(text: Union[str, bytes]) -> bytes:
    """Of a text as UTF-8, or of bytes: how a code, or what is to be signed, becomes 32 bytes."""
    return hashlib.sha256(text.encode() if isinstance(text, str) else text).digest()


def codes_of(source: Source) -> Codes:
    if isinstance(source, Codes):
        return source
    return Codes(source.cid, source.pin1, source.pin2, source.cvc if source.cvc_used else None)


def field(tag: int, value: bytes) -> bytes:
    length = bytes([len(value)]) if len(value) < 0xFF else b"\xff" + len(value).to_bytes(2, "big")
    return bytes([tag]) + length + value


def command(ins: int, fields: Sequence[tuple]) -> bytes:
    """Any request: the INS, and (tag, value) pairs of which those without a value are left out. Lc takes one byte or three."""
    payload = b"".join(field(tag, value) for tag, value in fields if value is not None)
    length = bytes([len(payload)]) if len(payload) <= 0xFF else b"\0" + len(payload).to_bytes(2, "big")
    return bytes([0, ins, 0, 0]) + length + payload


def coded(ins: int, source: Source, names: tuple, given: dict, *own: tuple) -> bytes:
    """A code that is given goes in, also where the command does not take it."""
    codes = codes_of(source)._replace(**given)
    return command(ins, [*((tag, getattr(codes, name)) for name, tag in CODE_TAGS.items() if name in names or name in given), *own])


def counter_bytes(counter: Optional[int]) -> Optional[bytes]:
    return None if counter is None else counter.to_bytes(4, "big")


def read_card(source: Source, **codes) -> bytes:
    return coded(0xF2, source, ("pin1",), codes)


def create_wallet(source: Source, **codes) -> bytes:
    return coded(0xF8, source, WITH_CVC, codes)


def check_wallet(source: Source, challenge: bytes, key_challenge: Optional[bytes] = None, **codes) -> bytes:
    """16 bytes, and 16 or none for the key."""
    return coded(0xF9, source, WITH_CID, codes, (0x16, challenge), (0x14, key_challenge))


def set_pin(source: Source, new_pin1: bytes, new_pin2: bytes, **codes) -> bytes:
    return coded(0xFA, source, WITH_CVC, codes, (0x12, new_pin1), (0x13, new_pin2))


def sign(source: Source, hashes: Optional[Sequence[bytes]] = None, **codes) -> bytes:
    """Up to ten hashes of 32 bytes; without them the last signatures are asked for again."""
    if hashes is None:
        return coded(0xFB, source, WITH_CVC, codes)
    return coded(0xFB, source, WITH_CVC, codes, (0x51, bytes([HASH_SIZE])), (0x50, b"".join(hashes)))


def verify_card(source: Source, challenge: bytes, **codes) -> bytes:
    return coded(0xF3, source, WITH_CID, codes, (0x16, challenge))


def validate_card(source: Source, **codes) -> bytes:
    return coded(0xF4, source, WITH_PIN2, codes)


def purge_wallet(source: Source, **codes) -> bytes:
    return coded(0xFC, source, WITH_PIN2, codes)


def read_user_data(source: Source, **codes) -> bytes:
    return coded(0xE1, source, WITH_CID, codes)


def write_user_data(source: Source, data: Optional[bytes] = None, counter: Optional[int] = None,
                    protected_data: Optional[bytes] = None, protected_counter: Optional[int] = None, **codes) -> bytes:
    """What is protected takes PIN2."""
    names = WITH_CID if protected_data is None and protected_counter is None else WITH_PIN2
    return coded(0xE0, source, names, codes, (0x2A, data), (0x2C, counter_bytes(counter)), (0x2B, protected_data),
                 (0x2D, counter_bytes(protected_counter)))


def write_issuer_data(source: Source, data: bytes, signature: bytes, counter: Optional[int] = None, **codes) -> bytes:
    """The issuer signs CID, data and, with replay protection, counter: a provider's `issue` does."""
    return coded(0xF6, source, WITH_CID, codes, (0x32, data), (0x33, signature), (0x35, counter_bytes(counter)))


def read_issuer_data(source: Source, **codes) -> bytes:
    return coded(0xF7, source, WITH_CID, codes)


def activate_card(source: Source, signature: bytes, reset_pin1: bool, **codes) -> bytes:
    """The issuer signs CID, Activation_Seed and reset_pin1, whether PIN1 becomes that of 000000: a provider's `confirm` does."""
    return coded(0xFE, source, WITH_CID, codes, (0x36, bytes([reset_pin1])), (0x34, signature))

"""The values of a card's image, by docs/IMAGE.md: each with its length there, in the order in which they stand there."""

import enum


class Curve(enum.IntEnum):
    SECP256K1 = 1
    ED25519 = 2


class Status(enum.IntEnum):
    EMPTY = 1
    LOADED = 2
    PURGED = 3


class Value:
    """A value of `image` that can be read and not set. `form` makes of its bytes what the reader gets, `laid_out` finds its offset."""

    def __init__(self, length: int, form=bytes):
        self.length, self.room, self.form = length, length, form

    def __set_name__(self, owner, name: str):
        self.name = name

    def __get__(self, card, owner=None):
        return self if card is None else self.form(self.bytes_of(card.image))

    def __set__(self, card, value):
        raise AttributeError(f"{self.name} can only be read: a tap changes a card, and Card.from_image makes another")

    def bytes_of(self, image: bytes) -> bytes:
        return image[self.offset : self.offset + self.length]


class Counted(Value):
    """A value of changing length: a count of the bytes, or of the units, and after it so many bytes of room."""

    def __init__(self, count_length: int, room: int, unit: int = 1, form=bytes):
        super().__init__(count_length, form)
        self.room, self.unit = count_length + room, unit

    def bytes_of(self, image: bytes) -> bytes:
        start = self.offset + self.length
        return image[start : start + self.unit * number(super().bytes_of(image))]


def number(value: bytes) -> int:
    return int.from_bytes(value, "big")


def flag(value: bytes) -> bool:
    return value == b"\1"


def curve(value: bytes) -> Curve:
    return Curve(number(value))


def status(value: bytes) -> Status:
    return Status(number(value))


def signatures(value: bytes) -> list:
    return [value[at : at + 64] for at in range(0, len(value), 64)]


def laid_out(view):
    """Each value stands behind the one before it."""
    end = 0
    for value in vars(view).values():
        if isinstance(value, Value):
            value.offset, end = end, end + value.room
    return view


@laid_out
class View:
    """What an image tells. Whoever has an `image` that is a card can be read by these names."""

    image: bytes
    pin1 = Value(32)
    pin2 = Value(32)
    cid = Value(8)
    cvc = Value(3)
    curve = Value(1, curve)
    max_signatures = Value(4, number)
    activation_seed = Value(16)
    pause = Value(1, number)
    reusable = Value(1, flag)
    cvc_used = Value(1, flag)
    pin1_may_change = Value(1, flag)
    pin2_may_change = Value(1, flag)
    purge_prohibited = Value(1, flag)
    replay_protection = Value(1, flag)
    activated = Value(1, flag)
    status = Value(1, status)
    wallet_number = Value(2, number)
    remaining = Value(4, number)
    signed_hashes = Value(4, number)
    wallet_public_key = Counted(1, 65)
    check_wallet_counter = Value(4, number)
    card_validation_counter = Value(2, number)
    user_counter = Value(4, number)
    user_protected_counter = Value(4, number)
    user_data = Counted(2, 512)
    user_protected_data = Counted(2, 512)
    issuer_data = Counted(2, 512)
    issuer_data_signature = Value(64)
    issuer_data_counter = Value(4, number)
    wrong_codes = Value(1, number)
    seconds_left = Value(1, number)
    held_request = Counted(2, 1024)
    last_signatures = Counted(1, 640, 64, signatures)

"""Cards by chance. Numbers stand mostly at an end of their range, where mistakes live."""

import random

from twin.commands import DEFAULT_PIN1, DEFAULT_PIN2
from twin.image import (
    ED25519, EMPTY, KEY_LENGTH, LOADED, LONGEST_PAUSE, LONGEST_REQUEST, LONGEST_WAIT, MOST_WRONG_CODES, PURGED, SECP256K1,
    SHORTEST_REQUEST, SIGNATURE_LENGTH, TOP_16, TOP_32, Card,
)

DATA_ROOM = 512
MOST_SIGNATURES = 10
# Where the two forms of a field's length meet, and the ends of the room for data.
LENGTHS = (0, 0, 1, 4, 64, 253, 254, 255, 256, 511, 512)


class Chance(random.Random):
    """All that is left to chance in one job, from one seed."""

    def often(self, share: float) -> bool:
        return self.random() < share

    def flag(self, share: float = 0.5) -> int:
        return int(self.often(share))

    def near_ends(self, low: int, high: int) -> int:
        """A number from low to high: near the one, near the other, or anywhere."""
        near = min(self.randrange(4), high - low)
        return self.choice((low + near, high - near, self.randint(low, high)))

    def data_length(self) -> int:
        return self.choice(LENGTHS) if self.often(0.8) else self.randint(0, DATA_ROOM)

    def signatures(self, least: int = 0) -> bytes:
        return self.randbytes(SIGNATURE_LENGTH * self.near_ends(least, MOST_SIGNATURES))

    def public_key(self, curve: int) -> bytes:
        key = self.randbytes(KEY_LENGTH[curve])
        return key if curve == ED25519 else b"\x04" + key[1:]

    def changed_bit(self, value: bytes) -> bytes:
        at = self.randrange(len(value))
        return value[:at] + bytes([value[at] ^ 1 << self.randrange(8)]) + value[at + 1 :]


def any_card(chance: Chance) -> Card:
    """Any card at all, also one to which no history leads."""
    if chance.often(0.15):
        return not_activated(chance)
    card = waiting(chance, held(chance, fresh(chance)))
    status = chance.choices((EMPTY, LOADED, PURGED), (3, 6, 1))[0]
    return {EMPTY: emptied, LOADED: loaded, PURGED: purged}[status](chance, card)


def not_activated(chance: Chance) -> Card:
    return waiting(chance, held(chance, fresh(chance)._replace(activated=0)))


def few_seconds(chance: Chance, most: int) -> int:
    """Mostly none or few, so that a history comes to their end; now and then near the most."""
    return chance.choice((0, 0, 0, 0, 0, 0, 1, 1, 2, 3)) if chance.often(0.9) else chance.near_ends(0, most)


def waiting(chance: Chance, card: Card) -> Card:
    """The card with wrong codes counted, and with bytes held that are hardly a request of its."""
    card = card._replace(wrong_codes=few_seconds(chance, MOST_WRONG_CODES))
    if chance.often(0.9):
        return card
    return card._replace(
        seconds_left=chance.near_ends(1, LONGEST_WAIT),
        held_request=chance.randbytes(chance.near_ends(SHORTEST_REQUEST, LONGEST_REQUEST)),
    )


def fresh(chance: Chance) -> Card:
    pin1 = DEFAULT_PIN1 if chance.often(0.1) else chance.randbytes(32)
    pin2 = chance.choice((pin1, DEFAULT_PIN2)) if chance.often(0.1) else chance.randbytes(32)
    return Card(
        pin1=pin1,
        pin2=pin2,
        cid=chance.randbytes(8),
        cvc=chance.randbytes(3),
        curve=chance.choice((SECP256K1, ED25519)),
        max_signatures=chance.near_ends(1, TOP_32),
        activation_seed=chance.choice((bytes(16), b"\xff" * 16)) if chance.often(0.1) else chance.randbytes(16),
        pause=few_seconds(chance, LONGEST_PAUSE),
        reusable=chance.flag(0.7),
        cvc_used=chance.flag(0.4),
        pin1_may_change=chance.flag(0.7),
        pin2_may_change=chance.flag(0.7),
        purge_prohibited=chance.flag(0.2),
        replay_protection=chance.flag(0.6),
        activated=1,
    )


def held(chance: Chance, card: Card) -> Card:
    """The card with counters and data, each of them possibly nothing."""
    issuer_data = chance.randbytes(chance.data_length())
    return card._replace(
        signed_hashes=chance.near_ends(0, TOP_32),
        check_wallet_counter=chance.near_ends(0, TOP_32),
        card_validation_counter=chance.near_ends(0, TOP_16),
        user_counter=chance.near_ends(0, TOP_32),
        user_protected_counter=chance.near_ends(0, TOP_32),
        user_data=chance.randbytes(chance.data_length()),
        user_protected_data=chance.randbytes(chance.data_length()),
        issuer_data=issuer_data,
        issuer_data_signature=chance.randbytes(SIGNATURE_LENGTH) if issuer_data else bytes(SIGNATURE_LENGTH),
        issuer_data_counter=chance.near_ends(0, TOP_32),
    )


def emptied(chance: Chance, card: Card) -> Card:
    return card._replace(wallet_number=chance.near_ends(0, TOP_16) if card.reusable else 0)


def loaded(chance: Chance, card: Card) -> Card:
    return card._replace(
        status=LOADED,
        wallet_number=chance.near_ends(1, TOP_16) if card.reusable else 1,
        remaining=chance.near_ends(0, card.max_signatures),
        wallet_public_key=chance.public_key(card.curve),
        last_signatures=chance.signatures(),
    )


def purged(chance: Chance, card: Card) -> Card:
    return card._replace(status=PURGED, reusable=0, wallet_number=1)

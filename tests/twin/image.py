"""What a card is made of, its image (docs/IMAGE.md), and which bytes are an image of a card."""

import struct
from typing import NamedTuple

EMPTY, LOADED, PURGED = 1, 2, 3
SECP256K1, ED25519 = 1, 2
CURVE_NAME = {SECP256K1: b"secp256k1", ED25519: b"ed25519"}
KEY_LENGTH = {SECP256K1: 65, ED25519: 32}
SIGNATURE_LENGTH = 64
TOP_16 = 0xFFFF
TOP_32 = 0xFFFFFFFF
LONGEST_PAUSE = 60
MOST_WRONG_CODES = 60
LONGEST_WAIT = LONGEST_PAUSE + MOST_WRONG_CODES
SHORTEST_REQUEST = 6
LONGEST_REQUEST = 1024


class Card(NamedTuple):
    """The values of a card. Those from `status` on default to what a fresh card has."""

    pin1: bytes
    pin2: bytes
    cid: bytes
    cvc: bytes
    curve: int
    max_signatures: int
    activation_seed: bytes
    pause: int
    reusable: int
    cvc_used: int
    pin1_may_change: int
    pin2_may_change: int
    purge_prohibited: int
    replay_protection: int
    activated: int
    status: int = EMPTY
    wallet_number: int = 0
    remaining: int = 0
    signed_hashes: int = 0
    wallet_public_key: bytes = b""
    check_wallet_counter: int = 0
    card_validation_counter: int = 0
    user_counter: int = 0
    user_protected_counter: int = 0
    user_data: bytes = b""
    user_protected_data: bytes = b""
    issuer_data: bytes = b""
    issuer_data_signature: bytes = bytes(SIGNATURE_LENGTH)
    issuer_data_counter: int = 0
    wrong_codes: int = 0
    seconds_left: int = 0
    held_request: bytes = b""
    last_signatures: bytes = b""


FLAGS = slice(Card._fields.index("reusable"), Card._fields.index("activated") + 1)
UP_TO_KEY = slice(0, Card._fields.index("wallet_public_key"))

# The form of each value, one after another. One of changing length is its length (of the signatures: their number), then its whole room.
FORMS = (
    "32s", "32s", "8s", "3s", "B", "I", "16s", "B",  # PIN1, PIN2, CID, CVC, curve, Max_Signatures, the seed, the pause
    "B", "B", "B", "B", "B", "B", "B",  # the flags
    "B", "H", "I", "I", "B65s",  # Status, wallet number, Remaining, Signed_Hashes, the key
    "I", "H", "I", "I",  # Check_Wallet_Counter, Card_Validation_Counter, the user counters
    "H512s", "H512s",  # User_Data, User_ProtectedData
    "H512s", "64s", "I",  # Issuer_Data, its signature and counter
    "B", "B", "H1024s",  # wrong codes counted, seconds left, the held request
    "B640s",  # the last signatures
)
LAYOUT = struct.Struct(">" + "".join(FORMS))
IMAGE_LENGTH = LAYOUT.size
PLACE = {name: struct.calcsize(">" + "".join(FORMS[:at])) for at, name in enumerate(Card._fields)}


def encode(card: Card) -> bytes:
    return LAYOUT.pack(
        *card[UP_TO_KEY],
        len(card.wallet_public_key), card.wallet_public_key,
        card.check_wallet_counter, card.card_validation_counter,
        card.user_counter, card.user_protected_counter,
        len(card.user_data), card.user_data,
        len(card.user_protected_data), card.user_protected_data,
        len(card.issuer_data), card.issuer_data, card.issuer_data_signature, card.issuer_data_counter,
        card.wrong_codes, card.seconds_left, len(card.held_request), card.held_request,
        len(card.last_signatures) // SIGNATURE_LENGTH, card.last_signatures,
    )


def decode(image: bytes) -> Card:
    (*up_to_key, key_length, key, check_wallet, validation, user, protected,
     user_length, user_data, protected_length, protected_data,
     issuer_length, issuer_data, issuer_signature, issuer_counter,
     wrong_codes, seconds_left, held_length, held_request,
     number_of_signatures, signatures) = LAYOUT.unpack(image)
    return Card(
        *up_to_key, key[:key_length], check_wallet, validation, user, protected,
        user_data[:user_length], protected_data[:protected_length],
        issuer_data[:issuer_length], issuer_signature, issuer_counter,
        wrong_codes, seconds_left, held_request[:held_length],
        signatures[:SIGNATURE_LENGTH * number_of_signatures],
    )


def is_card(image: bytes) -> bool:
    if len(image) != IMAGE_LENGTH:
        return False
    card = decode(image)
    return values_in_range(card) and unused_room_is_zero(card, image) and wallet_fits(card) and wait_fits(card)


def values_in_range(card: Card) -> bool:
    return (
        card.curve in CURVE_NAME
        and card.status in (EMPTY, LOADED, PURGED)
        and card.max_signatures >= 1
        and max(card[FLAGS]) <= 1
        and card.pause <= LONGEST_PAUSE
        and card.wrong_codes <= MOST_WRONG_CODES
    )


def unused_room_is_zero(card: Card, image: bytes) -> bool:
    """Encoding gives the image back unless a byte after a value is not zero, or a length exceeds its room."""
    return encode(card) == image and (card.issuer_data != b"" or not any(card.issuer_data_signature))


def wallet_fits(card: Card) -> bool:
    return (
        key_fits(card)
        and card.remaining <= (card.max_signatures if card.status == LOADED else 0)
        and wallet_number_fits(card)
        and not (card.status == PURGED and card.reusable)
        and (card.status == LOADED or card.last_signatures == b"")
        and (card.activated == 1 or (card.status == EMPTY and card.wallet_number == 0))
    )


def key_fits(card: Card) -> bool:
    if card.status != LOADED:
        return card.wallet_public_key == b""
    return is_key(card.curve, card.wallet_public_key)


def is_key(curve: int, key: bytes) -> bool:
    return len(key) == KEY_LENGTH[curve] and (curve == ED25519 or key[0] == 0x04)


def wallet_number_fits(card: Card) -> bool:
    if card.reusable:
        return card.status == EMPTY or card.wallet_number >= 1
    return card.wallet_number == (0 if card.status == EMPTY else 1)


def wait_fits(card: Card) -> bool:
    """Seconds are left exactly where a request is held. It need not be one that this card takes."""
    if card.held_request == b"":
        return card.seconds_left == 0
    return SHORTEST_REQUEST <= len(card.held_request) and 1 <= card.seconds_left <= LONGEST_WAIT

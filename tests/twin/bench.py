"""What the tests build their cards and requests from: one CID, one set of codes, a provider that counts."""

import hashlib

from twin.image import ED25519, EMPTY, IMAGE_LENGTH, LOADED, PLACE, PURGED, SECP256K1, Card
from twin.request import big_endian, field, number

CURVES = {SECP256K1: "secp256k1", ED25519: "ed25519"}
STATUSES = {EMPTY: "Empty", LOADED: "Loaded", PURGED: "Purged"}

CID = bytes.fromhex("AA00000000016675")
PIN1 = bytes(range(0x10, 0x30))
PIN2 = bytes(range(0x50, 0x70))
DEFAULT_PIN1 = bytes.fromhex("91B4D142823F7D20C5F08DF69122DE43F35F057A988D9619F6D3138485C9A203")  # SHA-256 of 000000
DEFAULT_PIN2 = bytes.fromhex("2AC9A6746ACA543AF8DFF39894CFE8173AFBA21EB01C6FAE33D52947222855EF")  # SHA-256 of 000
CVC = b"123"
SEED = bytes(range(0x80, 0x90))
DRAW = bytes(range(0xC0, 0xE0))
CHALLENGE = bytes(range(0xA0, 0xB0))
KEY_CHALLENGE = bytes(range(0xB0, 0xC0))

NAMES = {
    0xF2: "READ_CARD",
    0xF8: "CREATE_WALLET",
    0xF9: "CHECK_WALLET",
    0xFA: "SET_PIN",
    0xFB: "SIGN",
    0xF3: "VERIFY_CARD",
    0xF4: "VALIDATE_CARD",
    0xFC: "PURGE_WALLET",
    0xE1: "READ_USER_DATA",
    0xE0: "WRITE_USER_DATA",
    0xF6: "WRITE_ISSUER_DATA",
    0xF7: "READ_ISSUER_DATA",
    0xFE: "ACTIVATE_CARD",
}
(READ_CARD, CREATE_WALLET, CHECK_WALLET, SET_PIN, SIGN, VERIFY_CARD, VALIDATE_CARD, PURGE_WALLET,
 READ_USER_DATA, WRITE_USER_DATA, WRITE_ISSUER_DATA, READ_ISSUER_DATA, ACTIVATE_CARD) = NAMES


# ---------------------------------------------------------------- bytes


def some(length: int, seed: int = 0) -> bytes:
    """Bytes of this length, others for every seed."""
    return hashlib.shake_128(b"some %d" % seed).digest(length)


def off_by_last(value: bytes) -> bytes:
    return value[:-1] + bytes([value[-1] ^ 1])


def key(curve: int, seed: int) -> bytes:
    return b"\x04" + some(64, seed) if curve == SECP256K1 else some(32, seed)


# ---------------------------------------------------------------- cards


def fresh(curve: int = SECP256K1, **values) -> Card:
    """A fresh card with replay protection that allows the rest and asks no CVC, but for the values given."""
    usual = dict(
        pin1=PIN1, pin2=PIN2, cid=CID, cvc=CVC, curve=curve, max_signatures=1000, activation_seed=SEED, pause=0,
        reusable=1, cvc_used=0, pin1_may_change=1, pin2_may_change=1,
        purge_prohibited=0, replay_protection=1, activated=1,
    )
    return Card(**{**usual, **values})


def loaded(curve: int = SECP256K1, **values) -> Card:
    usual = dict(status=LOADED, wallet_number=1, remaining=999, signed_hashes=2, wallet_public_key=key(curve, 1))
    return fresh(curve, **{**usual, **values})


def purged(curve: int = SECP256K1, **values) -> Card:
    return fresh(curve, **{**dict(status=PURGED, wallet_number=1, reusable=0), **values})


def in_status(status: int, curve: int = SECP256K1, **values) -> Card:
    return {EMPTY: fresh, LOADED: loaded, PURGED: purged}[status](curve, **values)


FULL = dict(
    signed_hashes=70_000, check_wallet_counter=65_535, card_validation_counter=255, user_counter=0x01020304,
    user_protected_counter=0x05060708, user_data=some(3, 20), user_protected_data=some(4, 21),
    issuer_data=some(5, 22), issuer_data_signature=some(64, 23), issuer_data_counter=9, last_signatures=some(128, 24),
)


def full(status: int, curve: int = SECP256K1, **values) -> Card:
    """A card of this status that holds something everywhere, signatures only with a wallet."""
    signatures = {} if status == LOADED else dict(last_signatures=b"")
    return in_status(status, curve, **{**FULL, **signatures, **values})


def ready(ins: int, curve: int = SECP256K1, make=in_status, **values) -> Card:
    """A card that does the command."""
    status = EMPTY if ins in (CREATE_WALLET, ACTIVATE_CARD) else LOADED
    return make(status, curve, activated=int(ins != ACTIVATE_CARD), **values)


# Images of before, by what they lack: 2,445 bytes without the wait, 2,429 without the seed as well.
NO_WAIT = ("pause", "wrong_codes", "seconds_left", "held_request")
NO_SEED = ("activation_seed", *NO_WAIT)


def without(names: tuple, image: bytes) -> bytes:
    """The image with these values cut out."""
    ends = [*PLACE.values(), IMAGE_LENGTH][1:]
    return b"".join(image[start:end] for (name, start), end in zip(PLACE.items(), ends) if name not in names)


# ---------------------------------------------------------------- requests


def long_field(tag: int, value: bytes) -> bytes:
    return big_endian(tag, 1) + b"\xff" + big_endian(len(value), 2) + value


def header(ins: int, cla: int = 0, p1: int = 0, p2: int = 0) -> bytes:
    return bytes([cla, ins, p1, p2])


def short_lc(payload: bytes) -> bytes:
    return big_endian(len(payload), 1) + payload


def long_lc(payload: bytes) -> bytes:
    return b"\0" + big_endian(len(payload), 2) + payload


def sized(payload: bytes) -> bytes:
    """The payload after the Lc that fits it."""
    return short_lc(payload) if 1 <= len(payload) <= 255 else long_lc(payload)


def join(fields) -> bytes:
    """Fields as pairs of tag and value, or as bytes already put together."""
    return b"".join(one if isinstance(one, bytes) else field(*one) for one in fields)


def plain(ins: int, *fields, cla: int = 0, p1: int = 0, p2: int = 0) -> bytes:
    """A request of exactly these fields."""
    return header(ins, cla, p1, p2) + sized(join(fields))


ACCESS = ((0x10, PIN1), (0x01, CID))
CONFIRM = ((0x11, PIN2),)
CONFIRM_CVC = CONFIRM + ((0x19, CVC),)


def request(ins: int, *fields) -> bytes:
    """With PIN1 and CID before the fields given."""
    return plain(ins, *ACCESS, *fields)


def confirmed(ins: int, *fields) -> bytes:
    """With PIN1, CID and PIN2 before the fields given."""
    return plain(ins, *ACCESS, *CONFIRM, *fields)


def hashes(count: int, seed: int = 0) -> tuple:
    return (0x50, some(32 * count, 100 + seed)), (0x51, b"\x20")


def sign(count: int, seed: int = 0) -> bytes:
    return confirmed(SIGN, *hashes(count, seed))


def counter(value: int) -> bytes:
    return big_endian(value, 4)


REPEAT = confirmed(SIGN)


def issuer_data(length: int = 20, seed: int = 0, sent: int = 10) -> tuple:
    return (0x32, some(length, 40 + seed)), (0x33, some(64, 41 + seed)), (0x35, counter(sent))


def confirmation(reset: int = 0) -> tuple:
    return (0x36, bytes([reset])), (0x34, some(64, 46))


# What each command takes beside PIN1, CID and the codes, on the cards above.
OWN_FIELDS = {
    READ_CARD: (),
    CREATE_WALLET: (),
    CHECK_WALLET: ((0x16, CHALLENGE), (0x14, KEY_CHALLENGE)),
    SET_PIN: ((0x12, some(32, 12)), (0x13, some(32, 13))),
    SIGN: hashes(2),
    VERIFY_CARD: ((0x16, CHALLENGE),),
    VALIDATE_CARD: (),
    PURGE_WALLET: (),
    READ_USER_DATA: (),
    WRITE_USER_DATA: ((0x2A, some(5, 42)), (0x2B, some(6, 43)), (0x2C, counter(44)), (0x2D, counter(45))),
    WRITE_ISSUER_DATA: issuer_data(),
    READ_ISSUER_DATA: (),
    ACTIVATE_CARD: confirmation(),
}
WITH_PIN2 = (CREATE_WALLET, SET_PIN, SIGN, VALIDATE_CARD, PURGE_WALLET, WRITE_USER_DATA)
WITH_CVC = (CREATE_WALLET, SET_PIN, SIGN)


def codes(ins: int) -> tuple:
    if ins in WITH_CVC:
        return CONFIRM_CVC
    return CONFIRM if ins in WITH_PIN2 else ()


def usual(ins: int) -> bytes:
    """The command with all it can need."""
    return request(ins, *codes(ins), *OWN_FIELDS[ins])


def pause(seconds: int) -> bytes:
    """What is answered while so many seconds are left."""
    return b"\x1c\x02" + big_endian(100 * seconds, 2) + b"\x97\x89"


# ---------------------------------------------------------------- tags that stand twice


def tags(hexes: str) -> tuple:
    return tuple(bytes.fromhex(hexes))


# The tags of each command's entry, of which none may stand twice.
ONCE = {
    READ_CARD: tags("10"),
    CREATE_WALLET: tags("10 01 11 19"),
    CHECK_WALLET: tags("10 01 16 14"),
    SET_PIN: tags("10 01 11 19 12 13"),
    SIGN: tags("10 01 11 19 50 51"),
    VERIFY_CARD: tags("10 01 16"),
    VALIDATE_CARD: tags("10 01 11"),
    PURGE_WALLET: tags("10 01 11"),
    READ_USER_DATA: tags("10 01"),
    WRITE_USER_DATA: tags("10 01 11 2A 2B 2C 2D"),
    WRITE_ISSUER_DATA: tags("10 01 23 32 33 35"),
    READ_ISSUER_DATA: tags("10 01 23"),
    ACTIVATE_CARD: tags("10 01 36 34"),
}
# Others, which may, though one might think otherwise: of another command, or of the manual alone.
REPEATED = {
    READ_CARD: tags("01 11 19"),
    CREATE_WALLET: tags("05 33"),
    CHECK_WALLET: tags("11 19"),
    SET_PIN: tags("1E"),
    SIGN: tags("52 34 57"),
    VERIFY_CARD: tags("14"),
    VALIDATE_CARD: tags("19"),
    PURGE_WALLET: tags("19"),
    READ_USER_DATA: tags("2A 2B 2C 2D 11"),
    WRITE_USER_DATA: tags("19"),
    WRITE_ISSUER_DATA: tags("11 24 25"),
    READ_ISSUER_DATA: tags("32 35"),
    ACTIVATE_CARD: tags("11 19 3A 3B 33"),
}
# A value for each of the tags above that the cards above take. One byte less, and none of them is right.
RIGHT = {
    0x01: CID, 0x10: PIN1, 0x11: PIN2, 0x12: some(32, 12), 0x13: some(32, 13), 0x14: KEY_CHALLENGE, 0x16: CHALLENGE, 0x19: CVC,
    0x23: b"\0", 0x2A: b"A", 0x2B: b"B", 0x2C: counter(44), 0x2D: counter(45), 0x32: b"I", 0x33: some(64, 33), 0x34: some(64, 34),
    0x35: counter(10), 0x36: b"\0", 0x50: some(32, 50), 0x51: b"\x20",
}


def each_once(ins: int) -> list:
    """The fields of a request that the command takes, every tag of its entry in it."""
    return [(tag, RIGHT[tag]) for tag in ONCE[ins]]


# ---------------------------------------------------------------- the provider


class Provider:
    """Answers questions in the right shape, never twice the same bytes; the issuer's word, kinds 5 and 6, is yes."""

    def __init__(self):
        self.given = 0

    def answer(self, kind: int, curve: int) -> bytes:
        if kind in (5, 6):
            return b"\1"
        self.given += 1
        made = hashlib.sha512(b"answer %d" % self.given).digest()
        if kind == 1:
            return b"\x04" + made if curve == SECP256K1 else made[:32]
        return made

    def answers(self, questions: bytes) -> bytes:
        given = b""
        while questions:
            kind, curve, length = questions[0], questions[3], number(questions[4:6])
            given += self.answer(kind, curve)
            questions = questions[6 + length :]
        return given

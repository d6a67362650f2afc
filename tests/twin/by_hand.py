"""Cards, requests and taps in the hex of the paper, for what is worked out by hand."""

from twin.card import ask, personalise, settle
from twin.image import LOADED, Card, decode, encode

CID = "AA00000000016675"
PIN1, PIN2 = "11" * 32, "22" * 32
KEY = "04" + "33" * 64
SEED = "00112233445566778899AABBCCDDEEFF"
SALT, KEY_SALT = "0" * 32, "F" * 32
DRAW = SALT + KEY_SALT
CHALLENGE, KEY_CHALLENGE = "C1" * 16, "C2" * 16
CID_FIELD = "0108" + CID
ACCESS = "1020" + PIN1 + CID_FIELD
CONFIRMED = ACCESS + "1120" + PIN2
WRITTEN = ACCESS + "3202AABB" + "3340" + "55" * 64

SHEET_LINES = (
    "cid\t" + CID, "pin1\t" + PIN1, "pin2\t" + PIN2, "cvc\t123", "curve\tsecp256k1", "max\t7", "reusable\t1",
    "usecvc\t0", "setpin1\t1", "setpin2\t1", "nopurge\t0", "replay\t1", "active\t1", "seed\t" + SEED,
)


def sheet(**changed) -> bytes:
    pairs = dict(line.split("\t") for line in SHEET_LINES)
    return "".join(f"{name}\t{value}\n" for name, value in {**pairs, **changed}.items()).encode()


FRESH = decode(personalise(sheet())[1])
WITH_WALLET = FRESH._replace(status=LOADED, wallet_number=1, remaining=7, wallet_public_key=bytes.fromhex(KEY))


def request(ins: str, payload: str) -> bytes:
    """A plain request, with the one-byte Lc where that is enough."""
    length = len(payload) // 2
    return bytes.fromhex(f"00{ins}0000" + (f"{length:02X}" if length < 256 else f"00{length:04X}") + payload)


def questions(card: Card, ins: str, payload: str) -> str:
    asked = ask(encode(card), request(ins, payload), bytes.fromhex(DRAW))
    assert asked.number == 0 and asked.word == 0x9000, asked
    return asked.questions.hex().upper()


def tapped(card: Card, ins: str, payload: str, answers: str = ""):
    settled = settle(encode(card), request(ins, payload), bytes.fromhex(DRAW), bytes.fromhex(answers))
    assert settled.number == 0, settled
    return settled.response.hex().upper(), decode(settled.image)


def refused(card: Card, ins: str, payload: str, word: str, answers: str = "EE"):
    """Both calls say the word, the answers are not looked at, and the card stays."""
    asked = ask(encode(card), request(ins, payload), bytes.fromhex(DRAW))
    assert (asked.number, f"{asked.word:04X}", asked.questions) == (0, word, b""), asked
    assert tapped(card, ins, payload, answers) == (word, card)


def word_of(request_hex: str, card: Card = FRESH) -> str:
    return settle(encode(card), bytes.fromhex(request_hex), bytes(32), b"").response.hex().upper()


def hashes(count: int) -> str:
    return "510120" + "50" + (f"{32 * count:02X}" if count < 8 else f"FF{32 * count:04X}") + "AB" * 32 * count

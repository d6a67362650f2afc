"""The cryptography that a card borrows: what a provider is asked, and one that makes its answers up."""

import hashlib
from typing import List, NamedTuple, Optional, Union

from .view import Curve

MAKE_KEY, SIGN_HASH, HASH_AND_SIGN, CARD_SIGN, ISSUER_SIGNED, ISSUER_CONFIRMED = range(1, 7)
SIGNATURE = 64
QUESTION_HEAD = 6


class Question(NamedTuple):
    """One question of a card; host/link/practice.h lists the kinds, and what answers each."""

    kind: int
    wallet_number: int
    curve: Curve
    message: bytes
    cid: bytes


def questions_of(asked: bytes, cid: bytes) -> List[Question]:
    questions = []
    while asked:
        end = QUESTION_HEAD + int.from_bytes(asked[4:QUESTION_HEAD], "big")
        questions.append(Question(asked[0], int.from_bytes(asked[1:3], "big"), Curve(asked[3]), asked[QUESTION_HEAD:end], cid))
        asked = asked[end:]
    return questions


def issuer_message(cid: bytes, data: bytes, counter: Optional[int]) -> bytes:
    """What the issuer signs of a note; the counter only on a card with replay protection."""
    return cid + data + (b"" if counter is None else counter.to_bytes(4, "big"))


def confirmation_message(cid: bytes, activation_seed: bytes, reset_pin1: bool) -> bytes:
    """What the issuer signs of an activation."""
    return cid + activation_seed + bytes([reset_pin1])


def bytes_of(seed: Union[str, bytes]) -> bytes:
    return seed.encode() if isinstance(seed, str) else seed


def draw_of(seed: Union[str, bytes], tap: int) -> bytes:
    """The draw of a tap by docs/KEYS.md, where a lesson is to come out the same each time."""
    return hashlib.sha256(bytes_of(seed) + b"draw" + tap.to_bytes(4, "big")).digest()


class Provider:
    """Whoever has this method can be lent to a card."""

    def answer(self, questions: List[Question]) -> bytes:
        """The answers, one after the other with nothing between; none where there is no question."""
        raise NotImplementedError


class MadeUp(Provider):
    """Keys and signatures of the right shape that no curve knows. It needs nothing, and is enough where nobody verifies them.

    A key counts upwards from the wallet number. A signature is the message with its bytes summed into 64 places, so that another
    message mostly has another one. On a confirmation the issuer's key is another: it puts `transaction` behind the message, so that no
    note passes for one.
    """

    ISSUER = {ISSUER_SIGNED: b"", ISSUER_CONFIRMED: b"transaction"}

    def answer(self, questions: List[Question]) -> bytes:
        return b"".join(map(self.one, questions))

    def one(self, question: Question) -> bytes:
        if question.kind == MAKE_KEY:
            return self.key(question.wallet_number, question.curve)
        if question.kind in self.ISSUER:
            return bytes([self.signature(question.message[SIGNATURE:] + self.ISSUER[question.kind]) == question.message[:SIGNATURE]])
        return self.signature(question.message)

    @staticmethod
    def key(wallet_number: int, curve: Curve) -> bytes:
        counted = bytes((wallet_number + at) % 256 for at in range(64))
        return b"\4" + counted if curve == Curve.SECP256K1 else counted[:32]

    @staticmethod
    def signature(message: bytes) -> bytes:
        return bytes(sum(message[at::SIGNATURE]) % 256 for at in range(SIGNATURE))

    def issue(self, cid: bytes, data: bytes, counter: Optional[int] = None) -> bytes:
        """The issuer's signature on a note."""
        return self.signature(issuer_message(cid, data, counter))

    def confirm(self, cid: bytes, activation_seed: bytes, reset_pin1: bool) -> bytes:
        """The issuer's signature on a confirmation."""
        return self.signature(confirmation_message(cid, activation_seed, reset_pin1) + self.ISSUER[ISSUER_CONFIRMED])

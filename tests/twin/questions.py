"""Questions to the crypto provider, and the shape of its answers."""

import struct
from typing import NamedTuple, Optional

from twin.image import KEY_LENGTH, SIGNATURE_LENGTH, Card, is_key


YES_OR_NO = (5, 6)  # the kinds that ask for the issuer's word


class Question(NamedTuple):
    kind: int
    wallet_number: int
    curve: int
    message: bytes

    def encoded(self) -> bytes:
        return struct.pack(">BHBH", self.kind, self.wallet_number, self.curve, len(self.message)) + self.message

    def answer_length(self) -> int:
        if self.kind == 1:
            return KEY_LENGTH[self.curve]
        return 1 if self.kind in YES_OR_NO else SIGNATURE_LENGTH

    def answered_by(self, answer: bytes) -> bool:
        """Whether bytes of the right length are an answer."""
        if self.kind == 1:
            return is_key(self.curve, answer)
        return self.kind not in YES_OR_NO or answer in (b"\0", b"\1")


def question(card: Card, kind: int, message: bytes) -> Question:
    return Question(kind, card.wallet_number + (kind == 1), card.curve, message)


def cut(answers: bytes, questions: list) -> Optional[list]:
    """The answer to each question, or None where the answers have the wrong shape."""
    if len(answers) != sum(q.answer_length() for q in questions):
        return None
    parts = []
    for q in questions:
        answer, answers = answers[: q.answer_length()], answers[q.answer_length() :]
        if not q.answered_by(answer):
            return None
        parts.append(answer)
    return parts


def provider_says_no(questions: list, answers: list) -> bool:
    """Check 13."""
    return any(q.kind in YES_OR_NO and answer == b"\0" for q, answer in zip(questions, answers))

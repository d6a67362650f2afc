"""The practice keys of docs/KEYS.md: real signatures, worked out from a seed that anybody may read. Never put value under one."""

import hashlib
from typing import List, Optional, Union

from .providers import (
    CARD_SIGN, HASH_AND_SIGN, ISSUER_CONFIRMED, ISSUER_SIGNED, MAKE_KEY, SIGN_HASH, SIGNATURE, Provider, Question, bytes_of,
    confirmation_message, issuer_message,
)
from .requests import sha256
from .view import Curve

try:
    from ecdsa import BadSignatureError, Ed25519, SECP256k1, SigningKey
    from ecdsa.util import sigencode_string_canonize
except ImportError as why:
    raise ImportError("the practice keys want the module ecdsa (Debian: python3-ecdsa); merelstof.MadeUp wants nothing") from why


class OnSecp256k1:
    def __init__(self, secret: bytes):
        self.key = SigningKey.from_string(secret, SECP256k1, hashlib.sha256)

    def public(self) -> bytes:
        return self.key.verifying_key.to_string("uncompressed")

    def sign(self, digest: bytes) -> bytes:
        return self.key.sign_digest_deterministic(digest, sigencode=sigencode_string_canonize)

    def hash_and_sign(self, message: bytes) -> bytes:
        return self.sign(sha256(message))

    def signed(self, signature: bytes, message: bytes) -> bool:
        try:
            return self.key.verifying_key.verify_digest(signature, sha256(message))
        except BadSignatureError:
            return False


class OnEd25519:
    def __init__(self, secret: bytes):
        self.key = SigningKey.from_string(secret, Ed25519)

    def public(self) -> bytes:
        return self.key.verifying_key.to_string()

    def sign(self, message: bytes) -> bytes:
        return self.key.sign(message)

    def hash_and_sign(self, message: bytes) -> bytes:
        return self.sign(hashlib.sha512(message).digest())


WALLET = {Curve.SECP256K1: OnSecp256k1, Curve.ED25519: OnEd25519}


class Practice(Provider):
    def __init__(self, seed: Union[str, bytes] = "practice"):
        self.seed = bytes_of(seed)

    def answer(self, questions: List[Question]) -> bytes:
        return b"".join(map(self.one, questions))

    def one(self, question: Question) -> bytes:
        if question.kind == CARD_SIGN:
            return self.card(question.cid).hash_and_sign(question.message)
        if question.kind in (ISSUER_SIGNED, ISSUER_CONFIRMED):
            key = (self.issuer if question.kind == ISSUER_SIGNED else self.transaction)(question.cid)
            return bytes([key.signed(question.message[:SIGNATURE], question.message[SIGNATURE:])])
        wallet = self.wallet(question.cid, question.wallet_number, question.curve)
        if question.kind == MAKE_KEY:
            return wallet.public()
        return {SIGN_HASH: wallet.sign, HASH_AND_SIGN: wallet.hash_and_sign}[question.kind](question.message)

    def issue(self, cid: bytes, data: bytes, counter: Optional[int] = None) -> bytes:
        """The issuer's signature on a note."""
        return self.issuer(cid).hash_and_sign(issuer_message(cid, data, counter))

    def confirm(self, cid: bytes, activation_seed: bytes, reset_pin1: bool) -> bytes:
        """The issuer's signature on a confirmation."""
        return self.transaction(cid).hash_and_sign(confirmation_message(cid, activation_seed, reset_pin1))

    def wallet(self, cid: bytes, number: int, curve: Curve) -> Union[OnSecp256k1, OnEd25519]:
        return WALLET[curve](self.secret(b"wallet", cid, number))

    def card(self, cid: bytes) -> OnSecp256k1:
        return OnSecp256k1(self.secret(b"card", cid, 0))

    def issuer(self, cid: bytes) -> OnSecp256k1:
        return OnSecp256k1(self.secret(b"issuer", cid, 0))

    def transaction(self, cid: bytes) -> OnSecp256k1:
        return OnSecp256k1(self.secret(b"transaction", cid, 0))

    def secret(self, label: bytes, cid: bytes, number: int) -> bytes:
        """The first of these hashes that is a secret key of secp256k1."""
        hashes = (sha256(self.seed + label + cid + number.to_bytes(2, "big") + bytes([counter])) for counter in range(256))
        return next(one for one in hashes if 0 < int.from_bytes(one, "big") < SECP256k1.order)

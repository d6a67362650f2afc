#!/usr/bin/python3
"""The vectors of docs/KEYS.md, made from its text with python-ecdsa, and ed25519 once more with python-cryptography.

Run: /usr/bin/python3 tests/keys.py (Debian's python3-ecdsa and python3-cryptography). It prints the vectors as they stand in
docs/KEYS.md. It shares nothing with host/provider/provider.c, which it is there to measure.
"""

import hashlib

from cryptography.hazmat.primitives.asymmetric.ed25519 import Ed25519PrivateKey
from ecdsa import Ed25519, SECP256k1, SigningKey
from ecdsa.util import sigencode_string_canonize

ORDER = SECP256k1.order
CID = bytes.fromhex("AA00000000016675")
OTHER_CID = bytes.fromhex("0000000000000001")
SEED = b"practice"
ACTIVATION_SEED = bytes.fromhex("00112233445566778899AABBCCDDEEFF")
RESET, KEEP = b"\1", b"\0"
HASH = bytes(range(32))


def sha256(message: bytes) -> bytes:
    return hashlib.sha256(message).digest()


def secret(seed: bytes, label: bytes, cid: bytes, number: int) -> bytes:
    for counter in range(256):
        key = sha256(seed + label + cid + number.to_bytes(2, "big") + bytes([counter]))
        if 0 < int.from_bytes(key, "big") < ORDER:
            return key
    raise ValueError("no key in 256 tries")


class OnSecp256k1:
    def __init__(self, key: bytes):
        self.key = SigningKey.from_string(key, SECP256k1, hashlib.sha256)

    def public(self) -> bytes:
        return self.key.verifying_key.to_string("uncompressed")

    def sign(self, digest: bytes) -> bytes:
        return self.key.sign_digest_deterministic(digest, sigencode=sigencode_string_canonize)

    def hash_and_sign(self, message: bytes) -> bytes:
        return self.sign(sha256(message))


class OnEd25519:
    def __init__(self, key: bytes):
        self.key = SigningKey.from_string(key, Ed25519)
        self.again = Ed25519PrivateKey.from_private_bytes(key)

    def public(self) -> bytes:
        return self.key.verifying_key.to_string()

    def sign(self, message: bytes) -> bytes:
        made = self.key.sign(message)
        assert made == self.again.sign(message), "python-ecdsa and python-cryptography differ"
        return made

    def hash_and_sign(self, message: bytes) -> bytes:
        return self.sign(hashlib.sha512(message).digest())


WALLET = {1: OnSecp256k1, 2: OnEd25519}
CURVE = {1: "secp256k1", 2: "ed25519"}


def question(kind: int, number: int, curve: int, message: bytes) -> bytes:
    return bytes([kind]) + number.to_bytes(2, "big") + bytes([curve]) + len(message).to_bytes(2, "big") + message


def answer(seed: bytes, cid: bytes, kind: int, number: int, curve: int, message: bytes) -> bytes:
    """Kinds 1 to 4; for kinds 5 and 6 the vectors say what is right."""
    if kind == 4:
        return OnSecp256k1(secret(seed, b"card", cid, 0)).hash_and_sign(message)
    wallet = WALLET[curve](secret(seed, b"wallet", cid, number))
    return {1: lambda _: wallet.public(), 2: wallet.sign, 3: wallet.hash_and_sign}[kind](message)


def with_last_bit_changed(signature: bytes) -> bytes:
    return signature[:-1] + bytes([signature[-1] ^ 1])


def with_high_s(signature: bytes) -> bytes:
    s = ORDER - int.from_bytes(signature[32:], "big")
    return signature[:32] + s.to_bytes(32, "big")


def vectors():
    """name, seed, cid, question, answer."""
    text = b"engine hours 1204"

    def vector(name, kind, number, curve, message, seed=SEED, cid=CID):
        return name, seed, cid, question(kind, number, curve, message), answer(seed, cid, kind, number, curve, message)

    for curve, named in CURVE.items():
        yield vector(f"kind 1 on {named}", 1, 1, curve, b"")
        yield vector(f"kind 1 on {named}, the next wallet", 1, 2, curve, b"")
        yield vector(f"kind 1 on {named}, wallet 65,535 of another card under another seed", 1, 65535, curve, b"", bytes(40), OTHER_CID)
        yield vector(f"kind 2 on {named}", 2, 1, curve, HASH)
        yield vector(f"kind 2 on {named}, a hash of zeros", 2, 1, curve, bytes(32))
        yield vector(f"kind 2 on {named}, a hash above the order of secp256k1", 2, 1, curve, b"\xff" * 32)
        yield vector(f"kind 3 on {named}", 3, 1, curve, text)
    yield vector("kind 4", 4, 1, 1, text)
    yield vector("kind 4, another curve and wallet: the same key", 4, 7, 2, text)
    yield from issuer_vectors(CID + text)
    yield from confirmation_vectors(CID + ACTIVATION_SEED)


def issuer_vectors(message: bytes):
    right = OnSecp256k1(secret(SEED, b"issuer", CID, 0)).hash_and_sign(message)
    cards = OnSecp256k1(secret(SEED, b"card", CID, 0)).hash_and_sign(message)
    order = ORDER.to_bytes(32, "big")
    for name, signature, says in (
        ("the issuer's signature", right, 1),
        ("the issuer's with the high S", with_high_s(right), 1),
        ("the card's signature", cards, 0),
        ("the issuer's with one bit changed", with_last_bit_changed(right), 0),
        ("zeros", bytes(64), 0),
        ("an S of the order", right[:32] + order, 0),
    ):
        yield "kind 5, " + name, SEED, CID, question(5, 1, 1, signature + message), bytes([says])
    yield "kind 5, another curve and wallet: the same key", SEED, CID, question(5, 0, 2, right + message), b"\1"


def confirmation_vectors(cid_and_seed: bytes):
    """CID, seed and Reset_PIN1 are also the bytes of a note of 17 bytes, so that the two keys have to tell which of them was signed."""
    data, transaction = (OnSecp256k1(secret(SEED, label, CID, 0)) for label in (b"issuer", b"transaction"))
    reset, keep = cid_and_seed + RESET, cid_and_seed + KEEP
    right = transaction.hash_and_sign(reset)
    for name, kind, message, says in (
        ("the issuer's confirmation", 6, right + reset, 1),
        ("the issuer's that PIN1 stays", 6, transaction.hash_and_sign(keep) + keep, 1),
        ("the issuer's with the high S", 6, with_high_s(right) + reset, 1),
        ("the issuer's with one bit changed", 6, with_last_bit_changed(right) + reset, 0),
        ("Reset_PIN1 changed after signing", 6, right + keep, 0),
        ("signed by the issuer data key", 6, data.hash_and_sign(reset) + reset, 0),
        ("a note of the same bytes, signed by the transaction key", 5, right + reset, 0),
        ("the same note, signed by the issuer data key", 5, data.hash_and_sign(reset) + reset, 1),
    ):
        yield f"kind {kind}, {name}", SEED, CID, question(kind, 0, 1, message), bytes([says])
    yield "kind 6, another curve and wallet: the same key", SEED, CID, question(6, 7, 2, right + reset), b"\1"


def draws():
    for tap in (1, 2, 10000):
        yield f"draw {tap}", SEED, tap, sha256(SEED + b"draw" + tap.to_bytes(4, "big"))


def publics():
    for label in (b"card", b"issuer", b"transaction"):
        yield label.decode() + " key", SEED, CID, OnSecp256k1(secret(SEED, label, CID, 0)).public()


def written() -> str:
    blocks = [f"{name}\nseed      {seed.hex().upper()}\ncid       {cid.hex().upper()}\nkey       {key.hex().upper()}\n"
              for name, seed, cid, key in publics()]
    blocks += [f"{name}\nseed      {seed.hex().upper()}\ncid       {cid.hex().upper()}\nquestion  {asked.hex().upper()}\n"
               f"answer    {said.hex().upper()}\n" for name, seed, cid, asked, said in vectors()]
    blocks += [f"{name}\nseed      {seed.hex().upper()}\ntap       {tap:08X}\ndraw      {draw.hex().upper()}\n"
               for name, seed, tap, draw in draws()]
    return "\n".join(blocks)


if __name__ == "__main__":
    print(written(), end="")

"""Cases for the comparison of codes: one bit turned, other lengths that begin with the right code, codes that end in zeros.

Each starts from a card on which nothing is counted. What it must come to stands here by itself, so that the twin is held to it too.
"""

from itertools import product

from twin.bench import CVC, PIN1, PIN2, READ_CARD, SET_PIN, SIGN, confirmed, fresh, hashes, loaded, plain, request
from twin.image import decode

REFUSED, FORBIDDEN = 0x6A86, 0x6985


class Code:
    """One of the codes: where a card holds it, a request that sends it with all else right, the check that refuses it."""

    def __init__(self, name: str, right: bytes, check: int, sent, **card):
        self.name, self.right, self.check, self.sent, self.values = name, right, check, sent, card

    def use(self, held: bytes):
        self.card = loaded(**{self.name.lower(): held}, **self.values)

    def refused(self, script, words: str, value: bytes):
        settled = script.case(f"{self.name} {words}", self.card, self.sent(value))
        assert (settled.word, settled.reason) == (REFUSED, self.check), (self.name, words)
        assert decode(settled.image) == self.card._replace(wrong_codes=1), (self.name, words)

    def taken(self, script, words: str, value: bytes):
        settled = script.case(f"{self.name} {words}", self.card, self.sent(value))
        assert (settled.word, settled.reason) == (0x9000, 0), (self.name, words)


CODES = (
    Code("PIN1", PIN1, 6, lambda pin1: plain(READ_CARD, (0x10, pin1))),
    Code("PIN2", PIN2, 10, lambda pin2: request(SIGN, (0x11, pin2), *hashes(1))),
    Code("CVC", CVC, 10, lambda cvc: confirmed(SIGN, (0x19, cvc), *hashes(1)), cvc_used=1),
)


def turned(code: bytes, bit: int) -> bytes:
    """With this bit turned, counted from the first byte's highest."""
    place, low = divmod(bit, 8)
    return code[:place] + bytes([code[place] ^ 0x80 >> low]) + code[place + 1 :]


def bits(script):
    for code in CODES:
        code.use(code.right)
        for bit in range(8 * len(code.right)):
            code.refused(script, f"with bit {bit} turned", turned(code.right, bit))
        code.taken(script, "as it is", code.right)


def new_codes(script):
    """The first or the last bit of New_PIN1, of New_PIN2, or of both is another than the stored code's."""
    for may1, may2, bit, (differs1, differs2) in product((1, 0), (1, 0), (0, 255), ((1, 0), (0, 1), (1, 1))):
        new1, new2 = turned(PIN1, bit) if differs1 else PIN1, turned(PIN2, bit) if differs2 else PIN2
        names = " and ".join(["New_PIN1"] * differs1 + ["New_PIN2"] * differs2)
        settled = script.case(f"bit {bit} of {names} turned; PIN1 may change {may1}, PIN2 {may2}",
                              fresh(pin1_may_change=may1, pin2_may_change=may2), confirmed(SET_PIN, (0x12, new1), (0x13, new2)))
        allowed = may1 >= differs1 and may2 >= differs2
        assert settled.word == (0x9000 + differs1 + 2 * differs2 if allowed else FORBIDDEN), settled


def lengths(script):
    """The front of the right code, or all of it with zeros or itself behind it."""
    for code in CODES:
        code.use(code.right)
        for length in (0, 1, 2, 4, 31, 33, 64, 254, 255):
            if length < len(code.right):
                code.refused(script, f"of {length} bytes", code.right[:length])
            else:
                code.refused(script, f"of {length} bytes, zeros behind it", code.right.ljust(length, b"\0"))
                code.refused(script, f"of {length} bytes, itself behind it", (code.right * length)[:length])


def zeros(script):
    for code in CODES:
        size = len(code.right)
        for held, words in ((code.right[:-1] + b"\0", "that ends in 00"), (bytes(size), "of zeros")):
            code.use(held)
            code.refused(script, f"{words}, sent without its last byte", held[:-1])
            code.refused(script, f"{words}, sent as nothing", b"")
            code.refused(script, f"{words}, sent with one zero more", held + b"\0")
            code.taken(script, f"{words}, sent as it is", held)


GROUPS = (
    ("each bit of a code turned", bits),
    ("new codes that differ in one bit", new_codes),
    ("codes of other lengths that begin with the right one", lengths),
    ("codes that end in zeros", zeros),
)

"""Every command as a form: its fields by the paper's names, how often each goes in, and the ways to give its value."""

import os
from typing import NamedTuple

from merelstof.names import COMMANDS, TAGS
from merelstof.practice import Practice
from merelstof.requests import command, sha256
from merelstof.view import View

from cards import LONGEST

WAYS = {
    "own": "card's own",
    "code": "code, sent as SHA-256",
    "text": "text",
    "texts": "texts, a line each",
    "number": "number",
    "next": "stored one plus one",
    "issuer": "issuer signs this",
    "hex": "hex",
}
CHALLENGE = 16


class Row(NamedTuple):
    """A field: the ways to give it, the first being the form's own, and the bytes of a number."""

    ways: tuple
    width: int = 0
    value: str = ""


CODE, COUNTER = Row(("own", "code", "hex")), Row(("number", "hex"), 4, "0")
DATA = Row(("text", "hex"), 0, "oil topped up at 1204")
ROWS = {
    0x10: CODE,
    0x01: Row(("own", "hex")),
    0x11: CODE,
    0x19: Row(("own", "text", "hex")),
    0x12: CODE,
    0x13: CODE,
    0x16: Row(("hex",)),
    0x14: Row(("hex",)),
    0x51: Row(("number", "hex"), 1, "32"),
    0x50: Row(("texts", "hex"), 0, "engine hours 1204"),
    0x2A: DATA,
    0x2B: DATA,
    0x2C: COUNTER,
    0x2D: COUNTER,
    0x32: Row(("text", "hex"), 0, "07:00 oil pressure 4.1 bar"),
    0x33: Row(("issuer", "hex")),
    0x35: Row(("next", "number", "hex"), 4, "1"),
    0x23: Row(("number", "hex"), 1, "0"),
    0x36: Row(("number", "hex"), 1, "0"),
    0x34: Row(("issuer", "hex")),
}
CODES = (0x10, 0x01, 0x11, 0x19)
# The fields of each command, in the order in which they are sent.
FIELDS = {
    0xF2: (0x10,),
    0xF8: CODES,
    0xF9: (0x10, 0x01, 0x16, 0x14),
    0xFA: (*CODES, 0x12, 0x13),
    0xFB: (*CODES, 0x51, 0x50),
    0xF3: (0x10, 0x01, 0x16),
    0xF4: (0x10, 0x01, 0x11),
    0xFC: (0x10, 0x01, 0x11),
    0xE1: (0x10, 0x01),
    0xE0: (0x10, 0x01, 0x11, 0x2A, 0x2C, 0x2B, 0x2D),
    0xF6: (0x10, 0x01, 0x32, 0x33, 0x35, 0x23),
    0xF7: (0x10, 0x01, 0x23),
    0xFE: (0x10, 0x01, 0x36, 0x34),
}
# Those that a form leaves out at first.
OPTIONAL = {(0xF9, 0x14), (0xE0, 0x11), (0xE0, 0x2C), (0xE0, 0x2B), (0xE0, 0x2D), (0xF6, 0x23), (0xF7, 0x23)}


class Wrong(ValueError):
    """A value that cannot be sent, with the reason for the person who typed it."""


def times_at_first(card: View, ins: int, tag: int) -> int:
    """The CVC where the card uses it, the counter of a note where the card has replay protection."""
    if tag == 0x19:
        return int(card.cvc_used)
    if tag == 0x35:
        return int(card.replay_protection)
    return int((ins, tag) not in OPTIONAL)


def field_form(card: View, ins: int, tag: int) -> dict:
    row = ROWS[tag]
    value = os.urandom(CHALLENGE).hex().upper() if tag in (0x14, 0x16) else row.value
    return {"tag": f"{tag:02X}", "name": TAGS[tag], "times": times_at_first(card, ins, tag),
            "ways": [[way, WAYS[way]] for way in row.ways], "value": value}


def forms(card: View) -> list:
    return [{"ins": f"{ins:02X}", "command": name, "fields": [field_form(card, ins, tag) for tag in FIELDS[ins]]}
            for ins, name in COMMANDS.items()]


# ---- values ----


def hex_bytes(text: str) -> bytes:
    try:
        return bytes.fromhex(text)
    except ValueError:
        raise Wrong("hex has digits 0 to 9 and A to F, two a byte") from None


def number_bytes(text: str, width: int) -> bytes:
    top = 256**width - 1
    if not (text.isascii() and text.isdigit() and len(text) <= 10 and int(text) <= top):
        raise Wrong(f"a decimal number from 0 to {top}")
    return int(text).to_bytes(width, "big")


def own_bytes(card: View, tag: int) -> bytes:
    return {0x10: card.pin1, 0x12: card.pin1, 0x11: card.pin2, 0x13: card.pin2, 0x01: card.cid, 0x19: card.cvc}[tag]


def next_bytes(card: View) -> bytes:
    if card.issuer_data_counter == 0xFFFFFFFF:
        raise Wrong("the card's counter is at its top: it takes no more notes")
    return (card.issuer_data_counter + 1).to_bytes(4, "big")


def issuer_bytes(card: View, tag: int, values: dict) -> bytes:
    """The practice issuer's signature on a note, with its counter where the card has replay protection, or on a confirmation."""
    keys = Practice()
    if tag == 0x34:
        return keys.transaction(card.cid).hash_and_sign(card.cid + card.activation_seed + values.get(0x36, b""))
    counter = values.get(0x35, b"") if card.replay_protection else b""
    return keys.issuer(card.cid).hash_and_sign(card.cid + values.get(0x32, b"") + counter)


def value_of(card: View, tag: int, field: dict, values: dict) -> bytes:
    """By the way in which it is given; bytes in hex can be any field's. `values` are the form's other ones, as far as they are known."""
    way, text = field["way"], field["value"]
    if way != "hex" and way not in ROWS[tag].ways:
        raise KeyError(way)
    made = {
        "own": lambda: own_bytes(card, tag),
        "code": lambda: sha256(text),
        "text": lambda: text.encode(),
        "texts": lambda: b"".join(map(sha256, text.removesuffix("\n").split("\n"))) if text else b"",
        "number": lambda: number_bytes(text.strip(), ROWS[tag].width),
        "next": lambda: next_bytes(card),
        "issuer": lambda: issuer_bytes(card, tag, values),
        "hex": lambda: hex_bytes(text),
    }
    return made[way]()


# ---- requests ----


def tag_of(field: dict) -> int:
    """Any tag can be sent, also one that no command knows."""
    tag = hex_bytes(field["tag"])
    if len(tag) != 1:
        raise Wrong("a tag is one byte: two hex digits")
    return tag[0]


def pairs_of(card: View, field: dict, values: dict) -> list:
    """Tag and value, as often as they stand in the form: of a field that is left out nothing is looked at."""
    times = min(max(int(field["times"]), 0), 2)
    if times == 0:
        return []
    tag = tag_of(field)
    return [(tag, value_of(card, tag, field, values))] * times


def compose(card: View, ins: int, fields: list) -> tuple:
    """The request, and what is wrong with which of the fields, by its place in the form."""
    made, known, wrong = {}, {}, {}
    for at in sorted(range(len(fields)), key=lambda at: fields[at]["way"] == "issuer"):  # what the issuer signs has to be known
        try:
            made[at] = pairs_of(card, fields[at], known)
            known.update(made[at])
        except Wrong as why:
            wrong[at] = str(why)
    pairs = [pair for at in sorted(made) for pair in made[at]]
    if sum(len(value) + 4 for _, value in pairs) + 7 > LONGEST:
        wrong.setdefault(max(made, key=lambda at: sum(len(value) for _, value in made[at])), f"a request here has at most {LONGEST} bytes")
    return (b"", wrong) if wrong else (command(ins, pairs), {})

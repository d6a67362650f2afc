"""The personalisation sheet: fourteen lines and one that may follow, and the fresh card that they describe."""

import re

from twin.image import CURVE_NAME, TOP_32, Card, encode

FLAG = rb"[01]"
SHEET = (
    (b"cid", rb"[0-9A-F]{16}"),
    (b"pin1", rb"[0-9A-F]{64}"),
    (b"pin2", rb"[0-9A-F]{64}"),
    (b"cvc", rb"[0-9]{3}"),
    (b"curve", rb"secp256k1|ed25519"),
    (b"max", rb"[1-9][0-9]{0,9}"),
    (b"reusable", FLAG),
    (b"usecvc", FLAG),
    (b"setpin1", FLAG),
    (b"setpin2", FLAG),
    (b"nopurge", FLAG),
    (b"replay", FLAG),
    (b"active", FLAG),
    (b"seed", rb"[0-9A-F]{32}"),
)
PAUSE = (b"pause", rb"[0-9]|[1-5][0-9]|60")  # line 15, if it is there
AFTER_SHEET = len(SHEET) + 1
AFTER_PAUSE = AFTER_SHEET + 1
NO_ROOM = 99
IMAGE_ROOM = 4096


def personalise(sheet: bytes, room: int = IMAGE_ROOM) -> tuple:
    """The reader's answer, and the fresh card's image where that is 0."""
    if room < IMAGE_ROOM:
        return NO_ROOM, None
    values = []
    for line, (name, form) in enumerate(SHEET, 1):
        found = one_line(name, form, sheet)
        if not found or (name == b"max" and int(found[1]) > TOP_32):
            return line, None
        values.append(found[1])
        sheet = sheet[found.end() :]
    pause = one_line(*PAUSE, sheet)
    if sheet and not pause:
        return AFTER_SHEET, None
    if pause and pause.end() < len(sheet):
        return AFTER_PAUSE, None
    return 0, encode(fresh_card(*values, int(pause[1]) if pause else 0))


def one_line(name: bytes, form: bytes, text: bytes):
    """The line of this name and form at the start of the text, with its line feed."""
    return re.match(name + rb"\t(" + form + rb")\n", text)


def fresh_card(cid, pin1, pin2, cvc, curve, most, *rest) -> Card:
    def unhex(digits):
        return bytes.fromhex(digits.decode())

    named = {name: value for value, name in CURVE_NAME.items()}
    *flags, seed, pause = rest
    return Card(unhex(pin1), unhex(pin2), unhex(cid), cvc, named[curve], int(most), unhex(seed), pause, *map(int, flags))

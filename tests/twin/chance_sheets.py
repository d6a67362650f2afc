"""Personalisation sheets by chance, good ones and damaged ones."""

from twin.chance import Chance, few_seconds
from twin.image import LONGEST_PAUSE, TOP_32

NAMES = (b"cid", b"pin1", b"pin2", b"cvc", b"curve", b"max", b"reusable", b"usecvc", b"setpin1", b"setpin2", b"nopurge",
         b"replay", b"active", b"seed", b"pause")
OF_HEX = [NAMES.index(name) for name in (b"cid", b"pin1", b"pin2", b"seed")]
# Values that stand near a good one for some line or other.
ODD_VALUES = (
    b"", b"0", b"1", b"2", b"00", b"01", b"+1", b"-1", b" 1", b"1 ", b"1\r", b"1\t", b"\t1", b"007", b"12", b"1234", b"12A",
    b"4294967295", b"4294967296", b"4294967300", b"9999999999", b"10000000000", b"42949672950", b"18446744073709551617",
    b"secp256k1", b"ed25519", b"secp256r1", b"Secp256k1", b"secp256k1\0", b"ed2551", b"yes", b"\xff", b"05", b"60", b"61", b"060",
)


def good_lines(chance: Chance) -> list:
    """The last of the names is there in every second sheet."""
    def hexed(length: int) -> bytes:
        return chance.randbytes(length).hex().upper().encode()

    values = [hexed(8), hexed(32), hexed(32), b"%03d" % chance.randrange(1000), chance.choice((b"secp256k1", b"ed25519")),
              b"%d" % chance.near_ends(1, TOP_32), *(b"%d" % chance.flag() for _ in range(7)), hexed(16)]
    values += [b"%d" % few_seconds(chance, LONGEST_PAUSE)] * chance.flag()
    return [name + b"\t" + value + b"\n" for name, value in zip(NAMES, values)]


def good_sheet(chance: Chance) -> bytes:
    return b"".join(good_lines(chance))


def damaged_sheet(chance: Chance) -> bytes:
    """One thing wrong, sometimes two; now and then a good sheet after all."""
    lines = good_lines(chance)
    for _ in range(chance.choice((1, 1, 1, 2))):
        chance.choice(LINE_DAMAGES)(chance, lines, chance.randrange(len(lines)))
    sheet = b"".join(lines)
    return chance.choice(BYTE_DAMAGES)(chance, sheet) if chance.often(0.3) else sheet


# ---------------------------------------------------------------- damage to lines


def other_value(chance: Chance, lines: list, at: int):
    lines[at] = NAMES[at] + b"\t" + chance.choice(ODD_VALUES) + b"\n"


def small_letters(chance: Chance, lines: list, at: int):
    at = OF_HEX[at % len(OF_HEX)]
    lines[at] = lines[at].lower()


def value_length(chance: Chance, lines: list, at: int):
    line = lines[at].rstrip(b"\n")
    lines[at] = chance.choice((line[:-1], line + line[-1:], line + b"0")) + b"\n"


def gone(chance: Chance, lines: list, at: int):
    lines[at] = b""


def twice(chance: Chance, lines: list, at: int):
    lines[at] *= 2


def swapped(chance: Chance, lines: list, at: int):
    lines[at], lines[at - 1] = lines[at - 1], lines[at]


def other_end(chance: Chance, lines: list, at: int):
    lines[at] = lines[at].rstrip(b"\n") + chance.choice((b"", b"\r\n", b"\r", b"\n\n", b" \n", b"\t\n", b"\0\n"))


def other_name(chance: Chance, lines: list, at: int):
    name, rest = lines[at].split(b"\t", 1) if b"\t" in lines[at] else (b"", lines[at])
    lines[at] = chance.choice((name.upper(), name[:-1], name + b" ", b" " + name, b"")) + b"\t" + rest


LINE_DAMAGES = (other_value, other_value, small_letters, value_length, gone, twice, swapped, other_end, other_name)


# ---------------------------------------------------------------- damage to bytes


def cut_short(chance: Chance, sheet: bytes) -> bytes:
    return sheet[: chance.randrange(len(sheet) + 1)]


def one_bit(chance: Chance, sheet: bytes) -> bytes:
    return chance.changed_bit(sheet) if sheet else sheet


def one_byte_more(chance: Chance, sheet: bytes) -> bytes:
    at = chance.randint(0, len(sheet))
    return sheet[:at] + chance.randbytes(1) + sheet[at:]


def one_byte_less(chance: Chance, sheet: bytes) -> bytes:
    at = chance.randint(0, len(sheet))
    return sheet[:at] + sheet[at + 1 :]


def bytes_after(chance: Chance, sheet: bytes) -> bytes:
    return sheet + chance.choice((b"\n", b"\0", b" ", b"uid\t00\n", b"pause\t5\n", b"pause\t61\n", chance.randbytes(5)))


BYTE_DAMAGES = (cut_short, one_bit, one_bit, one_byte_more, one_byte_less, bytes_after)

"""Makes crates/images/stdin, images for the program `images`, and crates/images/stdout, what it must print.

Run: python3 tests/images.py (some minutes). tests/README.md tells what the lines mean. Every value of every byte is
tried, so the whole is 12 million calls of is_card.
"""

import multiprocessing
import pathlib

from twin.bench import NO_SEED, NO_WAIT, fresh, loaded, purged, some, without
from twin.card import is_card
from twin.image import ED25519, IMAGE_LENGTH, LOADED, PLACE, encode

CRATE = pathlib.Path(__file__).resolve().parent.parent / "crates" / "images"

CARDS = (
    fresh(activated=0, activation_seed=bytes(16)),
    fresh(ED25519, user_data=some(5, 1), user_protected_data=some(512, 2), pause=60, wrong_codes=60),
    loaded(last_signatures=some(192, 3), issuer_data=some(512, 4), issuer_data_signature=some(64, 5), seconds_left=1, held_request=b"\1" * 6),
    loaded(ED25519, reusable=0, pause=60, wrong_codes=60, seconds_left=120, held_request=b"\1" * 1024),
    purged(wrong_codes=1, seconds_left=2, held_request=b"\1" * 700 + bytes(3)),
    fresh(wallet_number=7),
    loaded(remaining=0, last_signatures=some(640, 6)),
    fresh(ED25519, activated=0, activation_seed=b"\xff" * 16, reusable=0, issuer_data=b"i", issuer_data_signature=some(64, 5),
          seconds_left=60, held_request=b"\1" * 40),
)
# Signatures and no wallet, be they zeros: a card as soon as there are none, and by no other byte.
NO_WALLET = fresh(wallet_number=7, last_signatures=bytes(64)), purged(last_signatures=bytes(640))
OTHER_LENGTHS = (b"", encode(fresh())[:-1], encode(fresh()) + b"\0")
# Of before there was a wait, and of before there was a seed.
OF_BEFORE = {2445: without(NO_WAIT, encode(fresh())), 2429: without(NO_SEED, encode(fresh()))}
# The first card's lines: offsets, and the values with which it is a card.
NOT_ACTIVATED = """\
0-74	00-FF
75	01-02
76-95	00-FF
96	00-3C
97-103	00-01
104	01-01
105-110	00-00
111-114	00-FF
115-180	00-00
181-194	00-FF
195	00-02
196	00-FF
197-708	00-00
709	00-02
710	00-FF
711-1222	00-00
1223	00-02
1224	00-FF
1225-1800	00-00
1801-1804	00-FF
1805	00-3C
1806-3473	00-00
--
"""
# The lines of the wait, by the length of the held request: the count, the seconds left, both bytes of the length, the request, the rest.
# Zeros after the request are no part of it, but may become one.
WAITS = {
    0: "1805\t00-3C\n1806-",
    6: "1805\t00-3C\n1806\t01-78\n1807\t00-03\n1808\t06-FF\n1809-1814\t00-FF\n1815-",
    40: "1805\t00-3C\n1806\t01-78\n1807\t00-03\n1808\t28-FF\n1809-1848\t00-FF\n1849-",
    703: "1805\t00-3C\n1806\t01-78\n1807\t02-03\n1808\tBC-FF\n1809-2511\t00-FF\n2512-",
    1024: "1805\t00-3C\n1806\t01-78\n1807\t04-04\n1808\t00-00\n1809-2832\t00-FF\n2833",
}
# No cards over the wait, each with the bytes that can mend it.
NO_CARDS = (
    (fresh(seconds_left=1, held_request=b"\1" * 5), "0-1806\tnone\n1807\t01-03\n1808\t06-FF\n1809-3473\tnone\n--\n"),
    (fresh(seconds_left=0, held_request=b"\1" * 6), "0-1805\tnone\n1806\t01-78\n1807-3473\tnone\n--\n"),
    (fresh(seconds_left=1), "0-1805\tnone\n1806\t00-00\n1807\t01-04\n1808\t06-FF\n1809-3473\tnone\n--\n"),
)
# 1,025 bytes held, where there is room for 1,024.
TOO_LONG = "0-1807\tnone\n1808\t00-00\n1809-3473\tnone\n--\n"


def byte_ranges(values: list) -> str:
    """Rising byte values as runs: `00-00 41-43`."""
    starts = [value for value in values if value - 1 not in values]
    ends = [value for value in values if value + 1 not in values]
    return " ".join(f"{start:02X}-{end:02X}" for start, end in zip(starts, ends)) or "none"


def poked(image: bytes, offset: int, value: int) -> bytes:
    return image[:offset] + bytes([value]) + image[offset + 1 :]


def tried(image: bytes) -> list:
    """For each offset, the byte values with which the image is a card."""
    return [byte_ranges([value for value in range(256) if is_card(poked(image, offset, value))])
            for offset in range(len(image))]


def merged(rows: list) -> list:
    """One line for each run of offsets with the same ranges."""
    lines, first = [], 0
    for offset, ranges in enumerate(rows):
        if offset + 1 == len(rows) or rows[offset + 1] != ranges:
            lines.append((f"{first}" if first == offset else f"{first}-{offset}") + "\t" + ranges)
            first = offset + 1
    return lines


def report(image: bytes) -> str:
    if len(image) != IMAGE_LENGTH:
        return f"{len(image)}\tno\n"
    return "\n".join(merged(tried(image))) + "\n--\n"


def too_long() -> bytes:
    image = encode(fresh(seconds_left=120, held_request=b"\1" * 1024))
    return poked(image, PLACE["held_request"] + 1, 1)


def hold_to_hand(cards: list, no_wallet: list, no_wait: list, of_before: list):
    """What is worked out by hand: a card that is not activated, pause and wait, the last signatures with their number, lengths of before."""
    assert cards[0] == NOT_ACTIVATED and of_before == [f"{length}\tno\n" for length in OF_BEFORE]
    count, end = PLACE["last_signatures"], IMAGE_LENGTH - 1
    for card, text in zip(CARDS, cards):
        assert "\n96\t00-3C\n" in text and "\n" + WAITS[len(card.held_request)] in text, card
        if card.status != LOADED:
            assert text.endswith(f"-{end}\t00-00\n--\n"), card
        elif not card.last_signatures:
            assert text.endswith(f"\n{count}\t00-0A\n{count + 1}-{end}\t00-00\n--\n"), card
    for text in no_wallet:
        assert text == f"0-{count - 1}\tnone\n{count}\t00-00\n{count + 1}-{end}\tnone\n--\n", text
    assert no_wait == [expected for _, expected in NO_CARDS] + [TOO_LONG], no_wait


def main():
    cards, no_wallet = [encode(card) for card in CARDS], [encode(card) for card in NO_WALLET]
    assert all(map(is_card, cards))
    no_wait = [encode(card) for card, _ in NO_CARDS] + [too_long()]
    groups = cards, no_wallet, no_wait, list(OTHER_LENGTHS), list(OF_BEFORE.values())
    images = sum(groups, [])
    with multiprocessing.Pool(2) as pool:
        reports = pool.map(report, images, chunksize=1)
    rest = iter(reports)
    told = [[next(rest) for _ in group] for group in groups]
    hold_to_hand(*told[:3], told[4])
    CRATE.mkdir(parents=True, exist_ok=True)
    (CRATE / "stdin").write_text("".join(image.hex().upper() + "\n" for image in images), newline="\n")
    (CRATE / "stdout").write_text("".join(reports), newline="\n")
    print(f"{len(images)} images, {sum(text.count(chr(10)) for text in reports)} lines")


if __name__ == "__main__":
    main()

"""Cases for tags that stand twice: refused by check 5 where the command's entry has the tag, no matter where it has not.

What each must come to stands here by itself, so that the twin is held to it too.
"""

from twin import card as twin
from twin.bench import (
    ACCESS, CHALLENGE, CID, CONFIRM_CVC, DRAW, NAMES, ONCE, PIN1, PIN2, READ_CARD, READ_ISSUER_DATA, READ_USER_DATA,
    REPEATED, RIGHT, SIGN, VERIFY_CARD, WRITE_USER_DATA, Provider, each_once, hashes, header, in_status, join, loaded, long_field,
    off_by_last, plain, ready, request, sized,
)
from twin.image import EMPTY, Card
from twin.request import field

REFUSED = (0x6A86, 5)
TORN = b"\xee"


def needing(ins: int) -> Card:
    """A card that does the command and needs all its values."""
    return ready(ins, cvc_used=1)


def not_needing(ins: int) -> Card:
    """A card that uses no CVC, has no replay protection, and signs no more."""
    return needing(ins)._replace(cvc_used=0, replay_protection=0, remaining=0)


def came_to(script, words: str, card, sent: bytes, expected: tuple):
    settled = script.case(words, card, sent)
    assert (settled.word, settled.reason) == expected, (words, settled)


def refused(script, words: str, card, sent: bytes):
    came_to(script, words, card, sent, REFUSED)


# ---------------------------------------------------------------- every tag of every entry


def pairs(ins: int, tag: int):
    """The command with this tag twice: right and right side by side, right and wrong, wrong and right with all fields between them."""
    right, wrong = (tag, RIGHT[tag]), (tag, RIGHT[tag][:-1])
    fields, at = each_once(ins), ONCE[ins].index(tag)
    others = fields[:at] + fields[at + 1 :]
    yield "right and right", fields[:at] + [right] + fields[at:]
    yield "right and wrong", [right] + others + [wrong]
    yield "wrong and right", [wrong] + others + [right]


def every_tag(script):
    """Two calls on a card that needs the values, settle alone on one that does not."""
    for ins in NAMES:
        script.use(needing(ins))
        for tag in ONCE[ins]:
            for values, fields in pairs(ins, tag):
                refused(script, f"{NAMES[ins]}: {tag:02X} {values}", None, plain(ins, *fields))
        script.say(f"{NAMES[ins]}: the same, where CVC, counter and hashes are not needed")
        script.use(not_needing(ins))
        for tag in ONCE[ins]:
            for _, fields in pairs(ins, tag):
                settled = script.settle(plain(ins, *fields), b"\xee")
                assert (settled.word, settled.reason) == REFUSED, settled


def more_often(script):
    """Three times; and so often that a count in a byte would come to 0 or to 1 again."""
    for ins in NAMES:
        *_, last = each_once(ins)
        refused(script, f"{NAMES[ins]}: {last[0]:02X} three times", needing(ins), plain(ins, *each_once(ins), last, last))
    script.use(loaded())
    for times in (255, 256, 257):
        refused(script, f"READ_CARD: PIN1, {times} times in all", None, plain(READ_CARD, (0x10, PIN1), *[(0x10, b"")] * (times - 1)))


# ---------------------------------------------------------------- forms and values


def forms(script):
    """Lengths of one byte and of three, empty values: each counts."""
    script.use(loaded())
    for ins, tag in ((READ_CARD, 0x10), (SIGN, 0x50), (WRITE_USER_DATA, 0x2A)):
        others = [one for one in each_once(ins) if one[0] != tag]
        short, long, empty, long_empty = field(tag, RIGHT[tag]), long_field(tag, RIGHT[tag]), field(tag, b""), long_field(tag, b"")
        rows = (("short, long", short + long), ("long, short", long + short), ("long, long", long + long),
                ("right, empty", short + empty), ("empty, right", empty + short), ("empty, empty", empty + empty),
                ("right, empty in long form", short + long_empty))
        for words, doubled in rows:
            refused(script, f"{NAMES[ins]}: {tag:02X} {words}", None, plain(ins, *others, doubled))


# Pairs of which the card took the first until it learned to refuse them.
BEFORE = (
    ("PIN1: right, wrong", plain(READ_CARD, (0x10, PIN1), (0x10, off_by_last(PIN1)))),
    ("PIN1: wrong, right", plain(READ_CARD, (0x10, off_by_last(PIN1)), (0x10, PIN1))),
    ("PIN1: empty, right", plain(READ_CARD, (0x10, b""), (0x10, PIN1))),
    ("PIN1: right twice", plain(READ_CARD, (0x10, PIN1), (0x10, PIN1))),
    ("CID: right, wrong", request(READ_USER_DATA, (0x01, off_by_last(CID)))),
    ("CID: wrong, right", plain(READ_USER_DATA, (0x01, off_by_last(CID)), *ACCESS)),
    ("PIN2: right, wrong", request(SIGN, *CONFIRM_CVC, (0x11, off_by_last(PIN2)), *hashes(1))),
    ("PIN2: wrong, right", request(SIGN, (0x11, off_by_last(PIN2)), *CONFIRM_CVC, *hashes(1))),
    ("CVC: right, wrong", request(SIGN, *CONFIRM_CVC, (0x19, b"124"), *hashes(1))),
    ("CVC: wrong, right", request(SIGN, (0x19, b"124"), *CONFIRM_CVC, *hashes(1))),
    ("hash array: empty, right", request(SIGN, *CONFIRM_CVC, (0x50, b""), *hashes(1))),
    ("hash array: right, empty", request(SIGN, *CONFIRM_CVC, *hashes(1), (0x50, b""))),
    ("hash size: 31, 32", request(SIGN, *CONFIRM_CVC, (0x51, b"\x1f"), *hashes(1))),
    ("hash size: 32, 31", request(SIGN, *CONFIRM_CVC, *hashes(1), (0x51, b"\x1f"))),
    ("Challenge: right, short", request(VERIFY_CARD, (0x16, CHALLENGE), (0x16, b"a"))),
    ("Challenge: short, right", request(VERIFY_CARD, (0x16, b"a"), (0x16, CHALLENGE))),
    ("User_Data: one, two", request(WRITE_USER_DATA, (0x2A, b"one"), (0x2A, b"two"))),
    ("User_Data: empty, two", request(WRITE_USER_DATA, (0x2A, b""), (0x2A, b"two"))),
    ("User_Data: one, empty", request(WRITE_USER_DATA, (0x2A, b"one!"), (0x2A, b""))),
    ("Mode: 0, 1", request(READ_ISSUER_DATA, (0x23, b"\0"), (0x23, b"\1"))),
    ("Mode: 1, 0", request(READ_ISSUER_DATA, (0x23, b"\1"), (0x23, b"\0"))),
)


def as_before(script):
    script.use(loaded(cvc_used=1))
    for words, sent in BEFORE:
        refused(script, words, None, sent)


# ---------------------------------------------------------------- beside other faults


def doubled(ins: int, *fields) -> list:
    """All that the command takes, but for the values given, and its last field once more."""
    given = dict(fields)
    sent = [(tag, given.get(tag, value)) for tag, value in each_once(ins)]
    return sent + sent[-1:]


def beside_others(script):
    """What is refused before check 5, and what would be refused by a later check."""
    for ins, name in NAMES.items():
        script.use(needing(ins))
        payload, wrong = join(doubled(ins)), doubled(ins, (0x10, off_by_last(PIN1)), (0x01, off_by_last(CID)))
        came_to(script, f"{name}: twice, and a byte after the payload", None, header(ins) + sized(payload) + b"\0", (0x6700, 1))
        came_to(script, f"{name}: twice, and CLA 80", None, header(ins, cla=0x80) + sized(payload), (0x6E00, 2))
        came_to(script, f"{name}: twice, and INS {ins ^ 0x40:02X}", None, header(ins ^ 0x40) + sized(payload), (0x6D00, 3))
        came_to(script, f"{name}: twice, and P2 01", None, header(ins, p2=1) + sized(payload), (0x6982, 4))
        came_to(script, f"{name}: twice, and P2 03", None, header(ins, p2=3) + sized(payload), (0x6A86, 4))
        refused(script, f"{name}: twice, and a torn field", None, header(ins) + sized(payload + TORN))
        refused(script, f"{name}: twice, PIN1 and CID wrong", None, plain(ins, *wrong))


def before_later_checks(script):
    """Check 5 stands before the card's state, the codes, the fields and the conditions."""
    came_to(script, "a SIGN that all later checks refuse", in_status(EMPTY, activated=0, cvc_used=1), plain(SIGN, (0x50, b"")), (0x6A86, 6))
    refused(script, "the same, its hash array twice", None, plain(SIGN, (0x50, b""), (0x50, b"")))
    for words, card in (("not activated", in_status(EMPTY, activated=0)), ("Empty", in_status(EMPTY)), ("no signatures", loaded())):
        refused(script, f"{words}: the repeat, PIN2 twice", card, request(SIGN, *CONFIRM_CVC, (0x11, PIN2)))
        refused(script, f"{words}: no hash array, its size twice", None, request(SIGN, *CONFIRM_CVC, (0x51, b"\x20"), (0x51, b"\x20")))
        refused(script, f"{words}: eleven hashes twice", None, request(SIGN, *CONFIRM_CVC, *hashes(11), hashes(11)[0]))
    script.use(loaded())
    for words, fields in (("User_Data alone", [(0x2A, b"x")]), ("no data", [])):
        refused(script, f"WRITE_USER_DATA, {words}, PIN2 twice", None, request(WRITE_USER_DATA, (0x11, PIN2), (0x11, b""), *fields))


# ---------------------------------------------------------------- what may repeat


def answered_as_once(script, words: str, ins: int, *more):
    """With these fields the command does what it does without them."""
    script.say(f"{NAMES[ins]}: {words}")
    script.use(needing(ins))
    image, sent = script.image, plain(ins, *each_once(ins), *more)
    answers = Provider().answers(script.ask(sent).questions)
    settled = script.settle(sent, answers)
    assert settled == twin.settle(image, plain(ins, *each_once(ins)), DRAW, answers), (words, settled)
    assert 0x9000 <= settled.word <= 0x9003, settled


def repeated(script):
    for ins in NAMES:
        for tag in REPEATED[ins]:
            right = RIGHT.get(tag, b"x")
            answered_as_once(script, f"{tag:02X} twice", ins, (tag, right[:-1]), (tag, right))
        answered_as_once(script, "EE three times", ins, (0xEE, b""), (0xEE, b"x"), (0xEE, b""))
    answered_as_once(script, "EE 257 times", READ_CARD, *[(0xEE, b"")] * 257)


GROUPS = (
    ("every tag of every entry twice", every_tag),
    ("three times and more", more_often),
    ("twice, in every form of a length", forms),
    ("pairs of which the first was taken before", as_before),
    ("twice, and another fault", beside_others),
    ("twice, where a later check would refuse", before_later_checks),
    ("tags that may stand twice", repeated),
)

"""Checks of what the twin does with a tag that stands twice, worked out by hand. selftest.py runs them."""

from twin.bench import NAMES, ONCE
from twin.by_hand import ACCESS, CHALLENGE, CID_FIELD, CONFIRMED, FRESH, KEY, PIN1, PIN2, WITH_WALLET, WRITTEN, hashes, request, tapped
from twin.card import ask, settle
from twin.commands import COMMANDS
from twin.image import Card, encode

PIN1_FIELD, PIN2_FIELD = "1020" + PIN1, "1120" + PIN2
CVC_FIELD = "1903313233"
ALL_CODES = CONFIRMED + CVC_FIELD
NEW_PINS = "1220" + "AB" * 32, "1320" + "CD" * 32
ONE_HASH = "5020" + "AB" * 32
NOTE = "3202AABB", "3340" + "55" * 64, "350400000001"
SIGNED = "77" * 64
# INS, the card, the fields of its entry, the answers: the command is done.
DONE = (
    ("F2", FRESH, [PIN1_FIELD], ""),
    ("F8", FRESH, [PIN1_FIELD, CID_FIELD, PIN2_FIELD, CVC_FIELD], KEY),
    ("F9", WITH_WALLET, [PIN1_FIELD, CID_FIELD, "1610" + CHALLENGE, "1400"], SIGNED * 2),
    ("FA", FRESH, [PIN1_FIELD, CID_FIELD, PIN2_FIELD, CVC_FIELD, *NEW_PINS], ""),
    ("FB", WITH_WALLET, [PIN1_FIELD, CID_FIELD, PIN2_FIELD, CVC_FIELD, ONE_HASH, "510120"], SIGNED),
    ("F3", FRESH, [PIN1_FIELD, CID_FIELD, "1610" + CHALLENGE], SIGNED),
    ("F4", FRESH, [PIN1_FIELD, CID_FIELD, PIN2_FIELD], SIGNED),
    ("FC", WITH_WALLET, [PIN1_FIELD, CID_FIELD, PIN2_FIELD], ""),
    ("E1", FRESH, [PIN1_FIELD, CID_FIELD], ""),
    ("E0", FRESH, [PIN1_FIELD, CID_FIELD, PIN2_FIELD, "2A0141", "2B0142", "2C0400000003", "2D0400000004"], ""),
    ("F6", FRESH, [PIN1_FIELD, CID_FIELD, "230100", *NOTE], "01"),
    ("F7", FRESH, [PIN1_FIELD, CID_FIELD, "230100"], ""),
    ("FE", FRESH._replace(activated=0), [PIN1_FIELD, CID_FIELD, "360101", "3440" + "11" * 64], "01"),
)


def refused(card: Card, ins: str, payload: str):
    """By both calls in check 5, and the card stays."""
    image, sent, draw = encode(card), request(ins, payload), bytes(32)
    assert ask(image, sent, draw) == (0, 5, 0x6A86, b""), (ins, payload)
    assert settle(image, sent, draw, b"\xee") == (0, 5, 0x6A86, b"\x6a\x86", image), (ins, payload)


def entries():
    assert {ins: set(command.reads) for ins, command in COMMANDS.items()} == {ins: set(ONCE[ins]) for ins in NAMES}
    assert [(ins, {int(one[:2], 16) for one in fields}) for ins, _, fields, _ in DONE] == [(f"{ins:02X}", set(ONCE[ins])) for ins in NAMES]


def every_tag_twice():
    """Each of the 256 tags twice in a command that is done without: refused where the entry has it, answered as without it where not."""
    for ins, card, fields, answers in DONE:
        payload, entry = "".join(fields), {one[:2] for one in fields}
        done = tapped(card, ins, payload, answers)
        assert done[0][-4:-1] == "900", ins
        for tag in (f"{tag:02X}" for tag in range(256)):
            if tag in entry:
                refused(card, ins, payload + tag + "00")
            else:
                assert tapped(card, ins, payload + tag + "00" + tag + "0141", answers) == done, (ins, tag)


def neither_is_taken():
    """New_PIN2 twice, in either order: the codes are as they were."""
    for new2 in (NEW_PINS[1] + "1320" + "EF" * 32, "1320" + "EF" * 32 + NEW_PINS[1], NEW_PINS[1] * 2, NEW_PINS[1] + "1300"):
        refused(FRESH, "FA", CONFIRMED + NEW_PINS[0] + new2)
    assert tapped(FRESH, "FA", CONFIRMED + "".join(NEW_PINS))[0] == CID_FIELD + "9003"


def needed_or_not():
    """CVC where none is used, the counter where none protects, PIN2 where none is asked, hashes where none remains."""
    refused(WITH_WALLET, "FB", ALL_CODES + CVC_FIELD + hashes(1))
    refused(FRESH._replace(replay_protection=0), "F6", WRITTEN + "350400000001" * 2)
    refused(FRESH, "E0", CONFIRMED + PIN2_FIELD + "2A0141")
    refused(WITH_WALLET._replace(remaining=0), "FB", CONFIRMED + hashes(1) + ONE_HASH)


def where_among_the_checks():
    """After the request's form, before PIN1; a doubled PIN1 is check 5's, be both right or both wrong."""
    refused(FRESH, "F2", PIN1_FIELD * 2)
    refused(FRESH, "F2", ("1020" + PIN2) * 2)
    refused(FRESH, "F2", PIN1_FIELD * 2 + "10")
    refused(FRESH._replace(activated=0), "FB", "5000" * 2)
    doubled = request("F2", PIN1_FIELD * 2).hex()
    for sent, reason, word in (("80" + doubled[2:], 2, 0x6E00), ("00F5" + doubled[4:], 3, 0x6D00),
                               ("00F20001" + doubled[8:], 4, 0x6982), ("00F20100" + doubled[8:], 4, 0x6A86)):
        assert ask(encode(FRESH), bytes.fromhex(sent), bytes(32)) == (0, reason, word, b""), sent


def forms_that_count():
    """A length of three bytes, an empty value, three of them; a field inside another does not."""
    for more in ("10FF0020" + PIN1, "1000", "10FF0000", PIN1_FIELD * 2, ACCESS + "EE00"):
        refused(FRESH, "F2", PIN1_FIELD + more)
        refused(FRESH, "F2", more + PIN1_FIELD)
    assert tapped(FRESH, "F2", PIN1_FIELD + "EE22" + PIN1_FIELD) == tapped(FRESH, "F2", PIN1_FIELD)


TESTS = (entries, every_tag_twice, neither_is_taken, needed_or_not, where_among_the_checks, forms_that_count)

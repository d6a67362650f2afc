"""Recordings of cards that go by post: what is answered until activation, the activation itself, and the sums after it."""

from twin.bench import (
    ACTIVATE_CARD, CID, CONFIRM, CREATE_WALLET, DEFAULT_PIN1, DRAW, PIN1, PURGE_WALLET, READ_CARD, READ_ISSUER_DATA, SIGN, confirmation,
    hashes, off_by_last, plain, request, sign,
)
from twin.card import settle
from twin.image import decode, encode
from twin.plays_taps import CREATE, READ, begun
from twin.recorder import Recording
from twin.script import hexed

KEEP, RESET = (request(ACTIVATE_CARD, *confirmation(reset)) for reset in (0, 1))
SAID_NO, STRAY, NOT_ACTIVATED, WRONG = "6286", "4", "6985", "6A86"


def under_default(ins: int, *fields) -> bytes:
    return plain(ins, (0x10, DEFAULT_PIN1), (0x01, CID), *fields)


def came_to(recording: Recording, sent: bytes, expected: str, answers: bytes = None):
    assert recording.tap(sent, answers) == expected, (recording.name, sent.hex())


def waiting(book: list, name: str, **sheet) -> Recording:
    """A card by post: what it tells, what it refuses, and a confirmation that is refused, strays, and is begun again."""
    recording = begun(book, name, active="0", **sheet)
    before = recording.tap(READ)
    recording.tap(request(READ_ISSUER_DATA))
    for sent in (CREATE, sign(1)):
        came_to(recording, sent, NOT_ACTIVATED)
    came_to(recording, off_by_last(KEEP), SAID_NO, b"\0")
    came_to(recording, RESET, SAID_NO, b"\0")
    for answers in (b"", b"\2", b"\1\1"):
        came_to(recording, RESET, STRAY, answers)
    came_to(recording, READ, before)
    return recording


def kept(book: list):
    recording = waiting(book, "activation: PIN1 kept", max="5", curve="ed25519")
    assert recording.tap(KEEP) == recording.tap(READ)
    came_to(recording, RESET, NOT_ACTIVATED)
    for sent in (CREATE, sign(3), sign(1)):
        recording.tap(sent)
    assert recording.play.last_line() == "3\t4\t2\t4\n"


def reset(book: list):
    """The old PIN1 is no more: each try with it costs the next request a second. The sums are those of the SIGNs under the default one.
    A purge and a wallet begin them anew."""
    recording = waiting(book, "activation: PIN1 reset", max="5", setpin1="0")
    told = recording.tap(RESET)
    for sent in (READ, RESET, CREATE):
        came_to(recording, sent, WRONG)
    assert recording.tap_after(3, plain(READ_CARD, (0x10, DEFAULT_PIN1))) == told
    came_to(recording, under_default(ACTIVATE_CARD, *confirmation(1)), NOT_ACTIVATED)
    for ins, *fields in ((CREATE_WALLET,), (SIGN, *hashes(2)), (PURGE_WALLET,), (CREATE_WALLET,), (SIGN, *hashes(4))):
        recording.tap(under_default(ins, *CONFIRM, *fields))
    came_to(recording, sign(1), WRONG)
    assert recording.play.last_line() == "4\t6\t1\t6\n"


def no_sums(book: list):
    """A hash array in ACTIVATE_CARD is no SIGN; on an activated card nothing comes of it."""
    recording = waiting(book, "activation: with hashes in it", max="2")
    recording.tap(request(ACTIVATE_CARD, *confirmation(), *hashes(3)))
    assert recording.play.last_line() == "0\t0\t0\t0\n"
    recording = begun(book, "activation: of a card that is activated", max="2")
    for sent in (CREATE, sign(2)):
        recording.tap(sent)
    for sent in (KEEP, RESET):
        came_to(recording, sent, NOT_ACTIVATED, b"\1")
    assert recording.play.last_line() == "1\t2\t1\t2\n"


def wrong_cards(book: list):
    """Recorded on a card that activates whatever the issuer says, and on one that resets PIN1 unasked: `other` from there on."""
    recording = begun(book, "other: of a card that activated though the issuer said no", active="0")
    awake = settle(recording.play.image, KEEP, DRAW, b"\1")
    recording.tap(KEEP, b"\0", expected=hexed(awake.response))
    recording.tap(READ, expected=hexed(settle(awake.image, READ, DRAW, b"").response))
    recording.tap(KEEP)
    recording = begun(book, "other: of a card that reset PIN1 unasked", active="0")
    recording.tap(KEEP)
    unasked = encode(decode(recording.play.image)._replace(pin1=DEFAULT_PIN1))
    recording.tap(READ, expected=hexed(settle(unasked, READ, DRAW, b"").response))
    read = plain(READ_CARD, (0x10, DEFAULT_PIN1))
    recording.tap(read, expected=hexed(settle(unasked, read, DRAW, b"").response))


def ends_at_a_bad_line(book: list):
    """Nine good taps, an activation among them, then a line that is none: the file's line 24."""
    recording = Recording("activation: then a bad line", bad=24).sheet(active="0")
    for sent in (READ, KEEP, READ, KEEP, CREATE, sign(1), READ, RESET, READ):
        recording.tap(sent)
    recording.line(b"activate")
    book.append(recording)


GROUPS = (kept, reset, no_sums, wrong_cards, ends_at_a_bad_line)

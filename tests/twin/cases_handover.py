"""Cases for a card that changes hands: a purge forgets the last signatures, and without a wallet an image that holds some is no card.

What each tap must come to stands here by itself, so that the twin is held to it too.
"""

from twin.bench import (
    CREATE_WALLET, CURVES, PIN2, PURGE_WALLET, READ_CARD, READ_ISSUER_DATA, READ_USER_DATA, REPEAT, confirmed, fresh, full, loaded,
    off_by_last, pause, request, sign, some, usual,
)
from twin.image import ED25519, EMPTY, LOADED, PLACE, PURGED, decode, encode
from twin.request import field

CREATE, PURGE = confirmed(CREATE_WALLET), confirmed(PURGE_WALLET)
READS = usual(READ_CARD), usual(READ_USER_DATA), usual(READ_ISSUER_DATA)
DONE, PAUSED, NO_STATUS, NO_CONDITION = (0x9000, 0), (0x9789, 0), (0x6985, 9), (0x6985, 12)


def held(count: int) -> bytes:
    return some(64 * count, 90 + count)


def came_to(script, sent: bytes, expected: tuple):
    settled = script.tap(sent)
    assert (settled.word, settled.reason) == expected, (sent.hex(), settled)
    return settled


def waited(script, sent: bytes, seconds: int, expected: tuple):
    """The same bytes so many times and once more."""
    for left in range(seconds, 0, -1):
        assert came_to(script, sent, PAUSED).response == pause(left), (sent.hex(), left)
    return came_to(script, sent, expected)


def signs_and_repeats(script, count: int):
    """A new SIGN, and the repeat, which gives the same to the byte and changes nothing."""
    signed = came_to(script, sign(count, count), DONE)
    assert came_to(script, REPEAT, DONE) == signed


def purges(script):
    """PURGE_WALLET, and the three commands that read: no signature is left, and the repeat is refused."""
    came_to(script, PURGE, DONE)
    assert decode(script.image).last_signatures == b""
    for sent in READS:
        came_to(script, sent, DONE)
    came_to(script, REPEAT, NO_STATUS)


# ---------------------------------------------------------------- from hand to hand


def reusable(script):
    for curve, name in CURVES.items():
        for count in (0, 1, 10):
            script.say(f"{name}, {count} signatures held")
            script.use(full(LOADED, curve, wallet_number=6, last_signatures=held(count)))
            came_to(script, REPEAT, DONE if count else NO_CONDITION)
            purges(script)
            came_to(script, CREATE, DONE)
            came_to(script, REPEAT, NO_CONDITION)
            signs_and_repeats(script, 1)
            signs_and_repeats(script, 10)


def not_reusable(script):
    for curve, name in CURVES.items():
        for count in (0, 1, 10):
            script.say(f"{name}, {count} signatures held")
            script.use(full(LOADED, curve, reusable=0, last_signatures=held(count)))
            purges(script)
            for sent in (CREATE, REPEAT, sign(1), PURGE):
                came_to(script, sent, NO_STATUS)


def last_numbers(script):
    script.say("after a purge of wallet 65,534 the last wallet begins")
    script.use(loaded(wallet_number=65_534, last_signatures=held(3)))
    purges(script)
    came_to(script, CREATE, DONE)
    came_to(script, REPEAT, NO_CONDITION)
    signs_and_repeats(script, 2)
    script.say("after a purge of wallet 65,535 none does")
    purges(script)
    came_to(script, CREATE, NO_CONDITION)
    came_to(script, REPEAT, NO_STATUS)


# ---------------------------------------------------------------- a purge that is none


def refused_purges(script):
    """The repeat after it gives what it gave before, if need be a second later."""
    rows = (
        ("prohibited", dict(purge_prohibited=1), PURGE, NO_CONDITION),
        ("prohibited, not reusable", dict(purge_prohibited=1, reusable=0), PURGE, NO_CONDITION),
        ("wrong PIN2", {}, request(PURGE_WALLET, (0x11, off_by_last(PIN2))), (0x6A86, 10)),
        ("PIN2 twice", {}, confirmed(PURGE_WALLET, (0x11, PIN2)), (0x6A86, 5)),
    )
    for count in (1, 10):
        for words, values, sent, expected in rows:
            script.say(f"{words}, {count} signatures held")
            script.use(loaded(last_signatures=held(count), **values))
            before = came_to(script, REPEAT, DONE)
            came_to(script, sent, expected)
            assert waited(script, REPEAT, int(words == "wrong PIN2"), DONE) == before, words


def stray_answers(script):
    """A purge has no question, so any answer to it is number 4."""
    for count, may_be_reused in ((1, 0), (10, 1)):
        script.say(f"reusable {may_be_reused}, {count} signatures held")
        script.use(loaded(reusable=may_be_reused, last_signatures=held(count)))
        before = came_to(script, REPEAT, DONE)
        for answers in (b"\0", held(1)):
            assert script.settle(PURGE, answers).number == 4
            assert came_to(script, REPEAT, DONE) == before
        purges(script)


# ---------------------------------------------------------------- signatures and no wallet


WITHOUT_WALLET = {
    "Empty": full(EMPTY, wallet_number=6),
    "Empty, ed25519": full(EMPTY, ED25519, wallet_number=65_535),
    "Empty, not reusable": fresh(reusable=0),
    "Empty, not activated": full(EMPTY, activated=0),
    "Purged": full(PURGED),
    "Purged, ed25519": full(PURGED, ED25519),
}


def is_no_card(script, words: str, image: bytes, *requests: bytes):
    script.say(words)
    script.use(image)
    for sent in requests:
        assert script.ask(sent).number == script.settle(sent).number == 1, words


def no_wallet(script):
    """A card with none; number 1 with one and with ten, be they zeros, whatever is sent."""
    for words, card in WITHOUT_WALLET.items():
        script.say(f"{words}: a card with none")
        script.use(card)
        came_to(script, usual(READ_CARD), DONE)
        for which, signatures in (("one", held(1)), ("one of zeros", bytes(64)), ("ten", held(10))):
            image = encode(card._replace(last_signatures=signatures))
            is_no_card(script, f"{words}: {which}", image, usual(READ_CARD), REPEAT, CREATE, b"")


def with_wallet(script):
    """None to ten, at Remaining Max: a card, and the repeat gives them. Eleven have no room."""
    for count in range(11):
        script.say(f"Loaded with {count}")
        script.use(loaded(remaining=1000, last_signatures=held(count)))
        settled = came_to(script, REPEAT, DONE if count else NO_CONDITION)
        assert (field(0x61, held(count)) in settled.response) == (count > 0)
    image, at = encode(loaded(last_signatures=held(10))), PLACE["last_signatures"]
    is_no_card(script, "Loaded with eleven", image[:at] + b"\x0b" + image[at + 1 :], usual(READ_CARD), REPEAT)


GROUPS = (
    ("from hand to hand: a reusable card", reusable),
    ("from hand to hand: not reusable", not_reusable),
    ("from hand to hand: the last wallet numbers", last_numbers),
    ("a purge that is refused keeps the signatures", refused_purges),
    ("a purge with a stray answer keeps the signatures", stray_answers),
    ("signatures and no wallet", no_wallet),
    ("signatures with a wallet", with_wallet),
)

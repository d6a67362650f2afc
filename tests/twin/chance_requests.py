"""Requests by chance: mostly what a card takes, and a share of them damaged at a place of chance."""

from typing import Callable

from twin.bench import (
    ACTIVATE_CARD, CHECK_WALLET, NAMES, PURGE_WALLET, READ_CARD, READ_ISSUER_DATA, SET_PIN, SIGN, VALIDATE_CARD,
    VERIFY_CARD, WITH_CVC, WITH_PIN2, WRITE_ISSUER_DATA, WRITE_USER_DATA, header, long_field, long_lc, short_lc,
)
from twin.chance import DATA_ROOM, Chance
from twin.commands import COMMANDS, DEFAULT_PIN1, DEFAULT_PIN2, HASH_LENGTH, MOST_HASHES
from twin.image import LONGEST_REQUEST as LONGEST, SIGNATURE_LENGTH, TOP_32, Card
from twin.request import Tag, big_endian, field, payload_of

CODES = (Tag.CID, Tag.PIN1, Tag.PIN2, Tag.CVC)
# How often a command is drawn from those that the card's status allows. A purge ends much, and an activation comes once, so they are rare.
WEIGHTS = {ins: 4 for ins in NAMES} | {
    SIGN: 12, CHECK_WALLET: 6, VALIDATE_CARD: 6, WRITE_ISSUER_DATA: 6, PURGE_WALLET: 1, ACTIVATE_CARD: 2,
}
NOT_ACTIVATED_WEIGHTS = WEIGHTS | {ACTIVATE_CARD: 8}


class Draft:
    """A request that is not yet bytes."""

    def __init__(self, ins: int):
        self.cla, self.ins, self.p1, self.p2 = 0, ins, 0, 0
        self.fields = []
        self.tail = b""
        self.wanted_length = None

    def add(self, tag: int, value: bytes):
        self.fields.append((tag, value))

    def places(self, tag: int) -> list:
        return [at for at, (other, _) in enumerate(self.fields) if other == tag]

    def payload(self, chance: Chance) -> bytes:
        return b"".join(
            long_field(tag, value) if len(value) > 254 or chance.often(0.06) else field(tag, value)
            for tag, value in self.fields
        ) + self.tail

    def written(self, chance: Chance) -> bytes:
        payload = self.payload(chance)
        if self.wanted_length:
            payload = filled_up(chance, payload, self.wanted_length - len(header(0)) - len(long_lc(b"")))
        short = len(payload) <= 255 and chance.often(0.85)
        return header(self.ins, self.cla, self.p1, self.p2) + (short_lc if short else long_lc)(payload)


def filled_up(chance: Chance, payload: bytes, length: int) -> bytes:
    """The payload with a field of no meaning after it that brings it to this length, where there is room."""
    missing = length - len(payload) - len(long_field(0, b""))
    return payload + long_field(0x7F, chance.randbytes(missing)) if missing >= 0 else payload


def any_request(chance: Chance, card: Card) -> bytes:
    draft = good_draft(chance, card, any_command(chance, card))
    if chance.often(0.25):
        for damage in chance.choices(DAMAGES, k=chance.choice((1, 1, 1, 2))):
            damage(chance, draft, card)
    request = draft.written(chance)
    return chance.choice(BREAKS)(chance, request) if chance.often(0.05) else request


def next_request(chance: Chance, card: Card) -> bytes:
    """Where a request is held, mostly the same bytes again, or nearly the same; the longer the wait, the less often."""
    if not card.held_request or not chance.often(0.85 if card.seconds_left < 8 else 0.5):
        return any_request(chance, card)
    return chance.choice(NEARLY)(chance, card.held_request) if chance.often(0.06) else card.held_request


def any_command(chance: Chance, card: Card) -> int:
    if chance.often(0.12):
        return chance.choice([*NAMES, SIGN, SIGN])
    allowed = [ins for ins in NAMES if card.status in COMMANDS[ins].allowed_in]
    weights = WEIGHTS if card.activated else NOT_ACTIVATED_WEIGHTS
    return chance.choices(allowed, [weights[ins] for ins in allowed])[0]


# ---------------------------------------------------------------- what a card takes


def good_draft(chance: Chance, card: Card, ins: int) -> Draft:
    draft = Draft(ins)
    draft.add(Tag.PIN1, card.pin1)
    if ins != READ_CARD or chance.often(0.3):
        draft.add(Tag.CID, card.cid)
    OWN.get(ins, nothing)(chance, draft, card)
    if ins in WITH_PIN2 or chance.often(0.1):
        draft.add(Tag.PIN2, card.pin2)
    if ins in WITH_CVC and card.cvc_used or chance.often(0.1):
        draft.add(Tag.CVC, card.cvc)
    if chance.often(0.2):
        unknown_fields(chance, draft)
    if chance.often(0.3):
        chance.shuffle(draft.fields)
    if chance.often(0.03):
        draft.wanted_length = LONGEST + chance.choice((-1, 0, 0, 1))
    return draft


def nothing(chance: Chance, draft: Draft, card: Card):
    pass


def challenge(chance: Chance, draft: Draft, card: Card):
    draft.add(Tag.CHALLENGE, chance.randbytes(16))


def challenges(chance: Chance, draft: Draft, card: Card):
    challenge(chance, draft, card)
    if chance.often(0.6):
        draft.add(Tag.PUBLIC_KEY_CHALLENGE, chance.randbytes(chance.choice((0, 16))))


def new_codes(chance: Chance, draft: Draft, card: Card):
    draft.add(Tag.NEW_PIN1, card.pin1 if chance.often(0.5) else chance.randbytes(32))
    draft.add(Tag.NEW_PIN2, card.pin2 if chance.often(0.5) else chance.randbytes(32))


def hashes(chance: Chance, draft: Draft, card: Card):
    if chance.often(0.2):
        return
    draft.add(Tag.HASH_ARRAY, chance.randbytes(HASH_LENGTH * chance.near_ends(1, MOST_HASHES)))
    draft.add(Tag.HASH_SIZE, big_endian(HASH_LENGTH, 1))


def user_data(chance: Chance, draft: Draft, card: Card):
    """Some of the four. Two long values would not fit one request, so the second is then mostly short."""
    lengths = [max(1, chance.data_length()), max(1, chance.data_length())]
    if sum(lengths) > LONGEST - 130 and chance.often(0.8):
        lengths[chance.randrange(2)] = chance.randint(1, 64)
    choices = (
        (Tag.USER_DATA, chance.randbytes(lengths[0])),
        (Tag.USER_PROTECTED_DATA, chance.randbytes(lengths[1])),
        (Tag.USER_COUNTER, big_endian(chance.near_ends(0, TOP_32), 4)),
        (Tag.USER_PROTECTED_COUNTER, big_endian(chance.near_ends(0, TOP_32), 4)),
    )
    for chosen in chance.sample(choices, chance.randint(1, 4)):
        draft.add(*chosen)


def mode(chance: Chance, draft: Draft, card: Card):
    if chance.often(0.3):
        draft.add(Tag.MODE, b"\0")


def issuer_data(chance: Chance, draft: Draft, card: Card):
    mode(chance, draft, card)
    draft.add(Tag.ISSUER_DATA, chance.randbytes(max(1, chance.data_length())))
    draft.add(Tag.ISSUER_DATA_SIGNATURE, chance.randbytes(SIGNATURE_LENGTH))
    if card.replay_protection or chance.often(0.2):
        draft.add(Tag.ISSUER_DATA_COUNTER, big_endian(sent_counter(chance, card.issuer_data_counter), 4))


def sent_counter(chance: Chance, stored: int) -> int:
    """Mostly above the stored one where there is room above it."""
    above = min(stored + chance.choice((1, 1, 1, 2, 256)), TOP_32)
    return chance.choice((above, above, above, above, chance.near_ends(stored, TOP_32), stored, max(stored - 1, 0)))


def confirmation(chance: Chance, draft: Draft, card: Card):
    draft.add(Tag.RESET_PIN1, bytes([chance.flag()]))
    draft.add(Tag.ACTIVATION_SIGNATURE, chance.randbytes(SIGNATURE_LENGTH))


OWN = {
    CHECK_WALLET: challenges,
    SET_PIN: new_codes,
    SIGN: hashes,
    VERIFY_CARD: challenge,
    WRITE_USER_DATA: user_data,
    WRITE_ISSUER_DATA: issuer_data,
    READ_ISSUER_DATA: mode,
    ACTIVATE_CARD: confirmation,
}


def unknown_fields(chance: Chance, draft: Draft):
    """Fields of two tags that the command does not read, each as often as it comes."""
    two = chance.sample([tag for tag in range(256) if tag not in COMMANDS[draft.ins].reads], 2)
    for tag in chance.choices(two, k=chance.randint(1, 4)):
        draft.fields.insert(chance.randint(0, len(draft.fields)), (tag, chance.randbytes(chance.randrange(20))))


# ---------------------------------------------------------------- damage to a draft


def other_class(chance: Chance, draft: Draft, card: Card):
    draft.cla = chance.randrange(1, 256)
    if chance.often(0.2):
        other_command(chance, draft, card)


def other_command(chance: Chance, draft: Draft, card: Card):
    draft.ins = chance.choice((0xF5, 0xFD, 0xFF, 0x00, chance.randrange(256)))


def other_parameters(chance: Chance, draft: Draft, card: Card):
    few = (0, 0, 1, 2, 3, 0xFF)
    draft.p1, draft.p2 = chance.choice(few), chance.choice(few)


def half_field(chance: Chance, draft: Draft, card: Card):
    """A field at the payload's end that the payload does not hold whole."""
    rest = (b"", b"\1", b"\xff", b"\xff\0", b"\xff\0\1", b"\x05abcd", b"\xff\xff\xffab")
    draft.tail = chance.randbytes(1) + chance.choice(rest)


def doubled_field(chance: Chance, draft: Draft, card: Card):
    """A field once or twice more, with the same value or another, beside it or apart."""
    if not draft.fields:
        return
    at = chance.randrange(len(draft.fields))
    tag, value = draft.fields[at]
    for _ in range(chance.choice((1, 1, 1, 2))):
        again = chance.choice((value, b"", chance.randbytes(len(value))))
        draft.fields.insert(chance.choice((at, at + 1, chance.randint(0, len(draft.fields)))), (tag, again))


def wrong_value(chance: Chance, draft: Draft, places: list):
    """At one of these places: another value, another length, or none."""
    if not places:
        return
    at = chance.choice(places)
    tag, value = draft.fields[at]
    kind = chance.randrange(7)
    if kind == 0:
        del draft.fields[at]
    else:
        draft.fields[at] = (tag, other_value(chance, value, kind))


def other_value(chance: Chance, value: bytes, kind: int) -> bytes:
    if kind == 1:
        return chance.changed_bit(value) if value else b"\0"
    if kind == 2:
        return value[:-1]
    if kind == 3:
        return value + chance.choice((b"\0", chance.randbytes(1)))
    if kind == 4:
        return b"\0" + value
    if kind == 5:
        return chance.choice((b"", b"\0", b"\1"))
    return chance.randbytes(chance.choice((2, 3, 4, 5, 15, 16, 17, 31, 32, 33, 63, 64, 65, 320, 352, DATA_ROOM, 513)))


def wrong_tag(*tags: int) -> Callable:
    def damage(chance: Chance, draft: Draft, card: Card):
        places = [at for tag in tags for at in draft.places(tag)]
        wrong_value(chance, draft, places or range(len(draft.fields)))

    return damage


def default_code(chance: Chance, draft: Draft, card: Card):
    """A default in the place of PIN1 or of PIN2, mostly its own."""
    at = chance.choice(draft.places(Tag.PIN1) + draft.places(Tag.PIN2) or [None])
    if at is not None:
        tag, own = draft.fields[at][0], {Tag.PIN1: DEFAULT_PIN1, Tag.PIN2: DEFAULT_PIN2}
        draft.fields[at] = (tag, own[tag] if chance.often(0.8) else chance.choice((DEFAULT_PIN1, DEFAULT_PIN2)))


def one_wrong_field(chance: Chance, draft: Draft, card: Card):
    wrong_value(chance, draft, range(len(draft.fields)))


def one_own_field(chance: Chance, draft: Draft, card: Card):
    """A field beside the codes, so that the checks before check 11 let it through."""
    wrong_value(chance, draft, [at for at, (tag, _) in enumerate(draft.fields) if tag not in CODES])


def no_own_field(chance: Chance, draft: Draft, card: Card):
    draft.fields = [one for one in draft.fields if one[0] in CODES]


# Lengths of the hash array with the hash size, each possibly absent, that no SIGN takes.
ODD_HASHES = (
    (0, None), (0, None), (0, None), (0, b"\x20"), (0, b"\x20"), (None, b"\x20"), (32, None), (32, b""), (32, b"\x21"),
    (32, b"\0\x20"), (1, b"\x20"), (31, b"\x20"), (33, b"\x20"), (319, b"\x20"), (321, b"\x20"), (352, b"\x20"), (352, b"\x20"),
    (352, b"\x20"),
)


def odd_hashes(chance: Chance, draft: Draft, card: Card):
    """To commands other than SIGN these are unknown fields."""
    draft.fields = [one for one in draft.fields if one[0] not in (Tag.HASH_ARRAY, Tag.HASH_SIZE)]
    length, size = chance.choice(ODD_HASHES)
    if length is not None:
        draft.add(Tag.HASH_ARRAY, chance.randbytes(length))
    if size is not None:
        draft.add(Tag.HASH_SIZE, size)


DAMAGES = (
    other_class, other_command, other_parameters, other_parameters, half_field, doubled_field, doubled_field, doubled_field,
    one_wrong_field, one_own_field, one_own_field, one_own_field, no_own_field, odd_hashes, odd_hashes,
    wrong_tag(Tag.PIN1), wrong_tag(Tag.CID), wrong_tag(Tag.PIN2), wrong_tag(Tag.CVC), wrong_tag(Tag.PIN2, Tag.CVC),
    wrong_tag(Tag.MODE, Tag.PUBLIC_KEY_CHALLENGE, Tag.USER_DATA), default_code, default_code,
)


# ---------------------------------------------------------------- damage to bytes


def cut_short(chance: Chance, request: bytes) -> bytes:
    return request[: chance.randrange(len(request))]


def few_bytes(chance: Chance, request: bytes) -> bytes:
    return request[: chance.randrange(9)]


def bytes_after(chance: Chance, request: bytes) -> bytes:
    return request + chance.randbytes(chance.choice((1, 1, 2, LONGEST)))


def one_bit(chance: Chance, request: bytes) -> bytes:
    return chance.changed_bit(request)


def other_lc(chance: Chance, request: bytes) -> bytes:
    return request[:4] + chance.choice((b"\0", b"\0\0\0", b"\0\0", bytes([chance.randrange(256)]))) + request[5:]


def any_bytes(chance: Chance, request: bytes) -> bytes:
    return chance.randbytes(chance.randrange(40))


BREAKS = (cut_short, few_bytes, bytes_after, one_bit, one_bit, other_lc, any_bytes)


def other_form(chance: Chance, request: bytes) -> bytes:
    """The same payload under the other Lc, where it has one."""
    payload = payload_of(request)
    if payload is None or len(payload) > 255:
        return request
    return request[:4] + (short_lc if request[4] == 0 else long_lc)(payload)


def last_bit(chance: Chance, request: bytes) -> bytes:
    return request[:-1] + bytes([request[-1] ^ 1])


NEARLY = (one_bit, last_bit, other_form, other_form, cut_short, bytes_after)

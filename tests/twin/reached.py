"""What the taps by chance have to reach, and the tables that show how often they did."""

from collections import Counter
from typing import Callable, NamedTuple

from twin.bench import (
    ACTIVATE_CARD, CHECK_WALLET, CREATE_WALLET, CURVES, NAMES, ONCE, PURGE_WALLET, READ_CARD, READ_ISSUER_DATA, READ_USER_DATA, SET_PIN,
    SIGN, STATUSES, VALIDATE_CARD, VERIFY_CARD, WRITE_ISSUER_DATA, WRITE_USER_DATA,
)
from twin.card import SW_NEED_PAUSE
from twin.delay import cleared
from twin.image import EMPTY, IMAGE_LENGTH, LOADED, PURGED, TOP_16, TOP_32, Card, decode, encode, is_card
from twin.reached_delay import NAMES_OF_PACES, Paced, paces_of, power_offs_of
from twin.request import fields_of, payload_of, values_of


class Call(NamedTuple):
    """What a call can come to: what it has where no check fails, the checks that refuse in it, its numbers, its status words."""

    passed: str
    checks: range
    numbers: range
    words: tuple


REFUSALS = (0x6700, 0x6982, 0x6985, 0x6A86, 0x6D00, 0x6E00)
CALLS = {
    "ask": Call("passed", range(1, 13), range(1, 4), (0x9000, SW_NEED_PAUSE, *REFUSALS)),
    "settle": Call("done", range(1, 14), range(1, 5), (0x9000, 0x9001, 0x9002, 0x9003, SW_NEED_PAUSE, 0x6286, *REFUSALS)),
}
NOT_ACTIVATED = 0
STATES = {NOT_ACTIVATED: "not activated", **STATUSES}
OLD_PIN1 = "refused under the PIN1 of before a reset"
NO_WALLET = {state: f"no card: signatures and no wallet, {name}" for state, name in STATES.items() if state != LOADED}

# The rows of a request whose second byte is no command, and of one that has no second byte.
OTHER, NONE = "other INS", "no INS"

HEAD = {1, 2, 4, 5, 6}
REFUSED_BY = {
    READ_CARD: HEAD,
    CREATE_WALLET: HEAD | {7, 8, 9, 10, 12},
    CHECK_WALLET: HEAD | {7, 8, 9, 11},
    SET_PIN: HEAD | {7, 8, 9, 10, 11, 12},
    SIGN: HEAD | {7, 8, 9, 10, 11, 12},
    VERIFY_CARD: HEAD | {7, 8, 11},
    VALIDATE_CARD: HEAD | {7, 8, 9, 10, 12},
    PURGE_WALLET: HEAD | {7, 8, 9, 10, 12},
    READ_USER_DATA: HEAD | {7, 8},
    WRITE_USER_DATA: HEAD | {7, 8, 9, 10, 11},
    WRITE_ISSUER_DATA: HEAD | {7, 8, 9, 11, 12, 13},
    READ_ISSUER_DATA: HEAD | {7, 11},
    ACTIVATE_CARD: HEAD | {7, 11, 12, 13},
    OTHER: {1, 2, 3},
    NONE: {1},
}
DONE_IN = {
    NOT_ACTIVATED: {READ_CARD, READ_ISSUER_DATA, ACTIVATE_CARD},
    EMPTY: set(NAMES) - {CHECK_WALLET, SIGN, PURGE_WALLET, ACTIVATE_CARD},
    LOADED: set(NAMES) - {CREATE_WALLET, ACTIVATE_CARD},
    PURGED: {READ_CARD, VERIFY_CARD, READ_USER_DATA, READ_ISSUER_DATA},
}


# ---------------------------------------------------------------- ends of ranges


class End(NamedTuple):
    """A place that a command comes to, done (0) or refused by a check: seen where the test holds.

    With `after` only in a history in which this has happened (HAPPENED).
    """

    name: str
    ins: int
    reason: int
    test: Callable[[Card, Card, bytes], bool]
    after: str = ""


def sent(request: bytes) -> dict:
    """The fields of a request that is well-formed."""
    return fields_of(payload_of(request))


def is_repeat(old: Card, new: Card, request: bytes) -> bool:
    return not {0x50, 0x51} & set(sent(request))


def is_reset(old: Card, new: Card, request: bytes) -> bool:
    return sent(request)[0x36] == b"\1"


ENDS = (
    End("Check_Wallet_Counter rises to its top", CHECK_WALLET, 0, lambda old, new, _: old.check_wallet_counter == TOP_32 - 1),
    End("Check_Wallet_Counter stays at its top", CHECK_WALLET, 0, lambda old, new, _: old.check_wallet_counter == TOP_32),
    End("Card_Validation_Counter rises to 65,535", VALIDATE_CARD, 0, lambda old, new, _: new.card_validation_counter == TOP_16),
    End("refused with Card_Validation_Counter 65,535", VALIDATE_CARD, 12, lambda old, new, _: True),
    End("wallet number 65,535 begins", CREATE_WALLET, 0, lambda old, new, _: new.wallet_number == TOP_16),
    End("refused after wallet 65,535", CREATE_WALLET, 12, lambda old, new, _: True),
    End("Max_Signatures 4,294,967,295 becomes Remaining", CREATE_WALLET, 0, lambda old, new, _: new.remaining == TOP_32),
    End("Max_Signatures 1 becomes Remaining", CREATE_WALLET, 0, lambda old, new, _: new.remaining == 1),
    End("Remaining falls to 0", SIGN, 0, lambda old, new, _: old.remaining == 1 and new.remaining == 0),
    End("SIGN refused with Remaining 0", SIGN, 12,
        lambda old, new, _: old.remaining == 0 and old.last_signatures != b"" and old.signed_hashes <= TOP_32 - 10),
    End("Signed_Hashes rises to its top", SIGN, 0, lambda old, new, _: old.signed_hashes < new.signed_hashes == TOP_32),
    End("SIGN refused above Signed_Hashes' top", SIGN, 12,
        lambda old, new, _: old.remaining > 0 and old.last_signatures != b""),
    End("User_Counter goes to 0", SIGN, 0, lambda old, new, _: old.user_counter == TOP_32 and new.user_counter == 0),
    End("User_ProtectedCounter goes to 0", SIGN, 0,
        lambda old, new, _: old.user_protected_counter == TOP_32 and new.user_protected_counter == 0),
    End("one hash signed", SIGN, 0, lambda old, new, _: old.remaining > new.remaining and len(new.last_signatures) == 64),
    End("ten hashes signed", SIGN, 0, lambda old, new, _: old.remaining > new.remaining and len(new.last_signatures) == 640),
    End("the repeat", SIGN, 0, lambda old, new, _: old == new),
    End("the repeat with Remaining 0", SIGN, 0, lambda old, new, _: old == new and old.remaining == 0),
    End("the repeat refused without signatures", SIGN, 12,
        lambda old, new, _: old.remaining > 0 and old.signed_hashes <= TOP_32 - 10),
    End("SIGN refused over an empty array with a size", SIGN, 11, lambda old, new, request: sent(request).get(0x50) == b""
        and sent(request).get(0x51) == b"\x20"),
    End("SIGN refused over an empty array without a size", SIGN, 11, lambda old, new, request: sent(request).get(0x50) == b""
        and 0x51 not in sent(request)),
    End("SIGN refused over eleven hashes", SIGN, 11, lambda old, new, request: len(sent(request).get(0x50, b"")) == 352
        and sent(request).get(0x51) == b"\x20"),
    End("issuer counter stored at its top", WRITE_ISSUER_DATA, 0,
        lambda old, new, _: old.issuer_data_counter < new.issuer_data_counter == TOP_32),
    End("refused with the issuer counter at its top", WRITE_ISSUER_DATA, 12,
        lambda old, new, _: old.issuer_data_counter == TOP_32),
    End("512 bytes of issuer data stored", WRITE_ISSUER_DATA, 0, lambda old, new, _: len(new.issuer_data) == 512),
    End("512 bytes of user data stored", WRITE_USER_DATA, 0, lambda old, new, _: len(new.user_data) == 512 > len(old.user_data)),
    End("512 bytes of protected data stored", WRITE_USER_DATA, 0,
        lambda old, new, _: len(new.user_protected_data) == 512 > len(old.user_protected_data)),
    End("user counter stored at its top", WRITE_USER_DATA, 0,
        lambda old, new, _: old.user_counter < new.user_counter == TOP_32),
    End("protected counter stored at its top", WRITE_USER_DATA, 0,
        lambda old, new, _: old.user_protected_counter < new.user_protected_counter == TOP_32),
    End("purged, reusable", PURGE_WALLET, 0, lambda old, new, _: new.status == EMPTY),
    End("purged, not reusable", PURGE_WALLET, 0, lambda old, new, _: new.status == PURGED),
    End("purged with no signatures held", PURGE_WALLET, 0, lambda old, new, _: old.last_signatures == b""),
    End("purged with ten signatures held", PURGE_WALLET, 0, lambda old, new, _: len(old.last_signatures) == 640),
    End("the repeat refused after a purge", SIGN, 9, is_repeat, after="purge"),
    End("the repeat refused on a new wallet after a purge", SIGN, 12, is_repeat, after="purge"),
    End("the repeat on a new wallet after a purge", SIGN, 0, is_repeat, after="purge"),
    End("activated, PIN1 kept", ACTIVATE_CARD, 0, lambda old, new, request: sent(request)[0x36] == b"\0"),
    End("activated, PIN1 reset", ACTIVATE_CARD, 0, is_reset),
    End("PIN1 reset, the default already", ACTIVATE_CARD, 0,
        lambda old, new, request: is_reset(old, new, request) and old.pin1 == new.pin1),
    End("PIN1 reset where SET_PIN may not", ACTIVATE_CARD, 0,
        lambda old, new, request: is_reset(old, new, request) and not old.pin1_may_change),
    End("activated after an unsigned confirmation", ACTIVATE_CARD, 0, lambda old, new, _: True, after="no"),
    End("FE refused over its fields, not activated", ACTIVATE_CARD, 11, lambda old, new, _: not old.activated),
    End("FE refused over its fields, activated", ACTIVATE_CARD, 11, lambda old, new, _: bool(old.activated)),
    *(End(f"FE refused on a card that is {name}", ACTIVATE_CARD, 12, lambda old, new, _, status=status: old.status == status)
      for status, name in STATUSES.items()),
    *(End(f"{NAMES[ins]} under a reset PIN1", ins, 0, lambda old, new, _: True, after="reset") for ins in (READ_CARD, CREATE_WALLET, SIGN)),
    *(End(f"{NAMES[ins]} done by a request of 1,024 bytes", ins, 0, lambda old, new, request: len(request) == 1024)
      for ins in (READ_CARD, SIGN, WRITE_USER_DATA, WRITE_ISSUER_DATA)),
    *(End(f"{NAMES[ins]} refused at 1,025 bytes", ins, 1, lambda old, new, request: len(request) == 1025)
      for ins in (READ_CARD, SIGN, WRITE_USER_DATA, WRITE_ISSUER_DATA)),
)


# ---------------------------------------------------------------- counting


def row_of(request: bytes):
    if len(request) < 2:
        return NONE
    return request[1] if request[1] in NAMES else OTHER


def state_of(card: Card) -> int:
    return card.status if card.activated else NOT_ACTIVATED


# What a later tap of a history may come after.
HAPPENED = {
    "purge": lambda row, reason, old, new: old.last_signatures != b"" and new.last_signatures == b"",  # which nothing else does
    "reset": lambda row, reason, old, new: new.activated > old.activated and new.pin1 != old.pin1,
    "no": lambda row, reason, old, new: (row, reason) == (ACTIVATE_CARD, 13),
}


def tags_twice(request: bytes) -> list:
    """The tags that stand twice in a request of a good length; none where it is malformed."""
    return [tag for tag, values in (values_of(payload_of(request)) or {}).items() if len(values) > 1]


class Reached:
    """How often each thing was reached. Sums of two are made by `update` of `times`."""

    def __init__(self):
        self.times = Counter()
        self.begun()

    def begun(self):
        """A history begins."""
        self.happened, self.old_pin1 = set(), None

    def called(self, call: str, request: bytes, result):
        """Every call of ask and of settle, whatever it came to."""
        row = row_of(request)
        self.times["call", call] += 1
        if result.number:
            self.times["number", call, row, result.number] += 1
            return
        self.times["word", call, result.word] += 1
        if result.word == SW_NEED_PAUSE:
            self.times["waits", call, row] += 1
        else:
            self.times["reason", call, row, result.reason] += 1

    def paced(self, one: Paced):
        """A tap on a card, whatever came of it."""
        self.times.update(("pace", name) for name in paces_of(one))
        if one.goes and one.again and one.reason == 0:
            self.times["waited", row_of(one.request)] += 1
        if one.goes or one.refused:
            self.tapped(one.request, one.reason, cleared(one.before), cleared(one.after))

    def powered_off(self, image: bytes, off):
        self.times.update(("pace", name) for name in power_offs_of(image, off))

    def tapped(self, request: bytes, reason: int, before: Card, after: Card):
        """Done or refused. What waits is no matter here."""
        row = row_of(request)
        if reason == 0:
            self.times["done in", row, state_of(before), before.curve] += 1
        if reason in (0, 5):
            self.stood_twice(row, reason, tags_twice(request))
        for end in ENDS_OF.get((row, reason), ()):
            self.times["end", end.name] += end.test(before, after, request) and (not end.after or end.after in self.happened)
        if reason == 6:
            self.times["end", OLD_PIN1] += sent(request).get(0x10, b"") == self.old_pin1
        happened = {name for name, test in HAPPENED.items() if test(row, reason, before, after)}
        if "reset" in happened:
            self.old_pin1 = before.pin1
        self.happened |= happened

    def no_card(self, image: bytes):
        """A tap on what is no card: counted where signatures without a wallet are all that is wrong."""
        card = decode(image) if len(image) == IMAGE_LENGTH else None
        if card and card.last_signatures and encode(card) == image and is_card(encode(card._replace(last_signatures=b""))):
            self.times["end", NO_WALLET[state_of(card)]] += 1

    def stood_twice(self, row, reason: int, tags: list):
        """Done with some tags twice; or refused over one, which is told only where no other stands twice."""
        if reason == 0:
            self.times["repeated", row] += bool(tags)
        elif len(tags) == 1:
            self.times["twice", row, *tags] += 1


END_NAMES = (*(end.name for end in ENDS), OLD_PIN1, *NO_WALLET.values())
ENDS_OF = {}
for one in ENDS:
    ENDS_OF.setdefault((one.ins, one.reason), []).append(one)


# ---------------------------------------------------------------- tables


def table(head: list, rows: list) -> str:
    widths = [max(len(row[at]) for row in [head] + rows) for at in range(len(head))]
    lines = [[cell.ljust(width) if at == 0 else cell.rjust(width) for at, (cell, width) in enumerate(zip(row, widths))]
             for row in [head] + rows]
    return "\n".join("  ".join(line).rstrip() for line in lines)


def cell(times: Counter, key: tuple, possible: bool) -> str:
    """A count, or a dot where nothing is to be counted."""
    return str(times[key]) if possible or times[key] else "."


def name_of(row) -> str:
    return NAMES.get(row, row)


def by_check(times: Counter, name: str, call: Call) -> str:
    """Commands against what a call came to: no check failed, the check that refused, the number."""
    head = [name, call.passed, *(f"chk {check}" for check in call.checks), *(f"no. {number}" for number in call.numbers)]
    rows = [[name_of(row), cell(times, ("reason", name, row, 0), row in NAMES),
             *(cell(times, ("reason", name, row, check), check in refusals) for check in call.checks),
             *(cell(times, ("number", name, row, number), number < 4 or row in NAMES) for number in call.numbers)]
            for row, refusals in REFUSED_BY.items()]
    return table(head, rows)


def by_state(times: Counter) -> str:
    """Commands against where they were done: status and curve."""
    head = ["done on a card that is", *(f"{state} {curve}" for state in STATES.values() for curve in CURVES.values())]
    rows = [[name, *(cell(times, ("done in", ins, state, curve), ins in DONE_IN[state]) for state in STATES for curve in CURVES)]
            for ins, name in NAMES.items()]
    return table(head, rows)


def by_tag(times: Counter) -> str:
    """Commands against the one tag that stood twice where check 5 refused; and how often they were done with another one twice."""
    tags = sorted({tag for once in ONCE.values() for tag in once})
    head = ["refused: it stood twice", *(f"{tag:02X}" for tag in tags), "done: another did"]
    rows = [[name, *(cell(times, ("twice", ins, tag), tag in ONCE[ins]) for tag in tags), str(times["repeated", ins])]
            for ins, name in NAMES.items()]
    return table(head, rows)


def by_wait(times: Counter) -> str:
    """Commands against how often they had to wait, and how often they were done after it."""
    head = ["had to wait", *CALLS, "done after it"]
    rows = [[name, *(str(times["waits", call, ins]) for call in CALLS), str(times["waited", ins])] for ins, name in NAMES.items()]
    return table(head, rows)


def by_pace(times: Counter) -> str:
    return table(["pace", "times"], [[name, str(times["pace", name])] for name in NAMES_OF_PACES])


def by_word(times: Counter, name: str, call: Call) -> str:
    head = [f"{name}'s status word", *(f"{word:04X}" for word in call.words)]
    return table(head, [["times", *(str(times["word", name, word]) for word in call.words)]])


def by_end(times: Counter) -> str:
    return table(["end of a range", "times"], [[name, str(times["end", name])] for name in END_NAMES])


def tables(times: Counter) -> str:
    of_calls = [by(times, *call) for by in (by_check, by_word) for call in CALLS.items()]
    return "\n\n".join((*of_calls, by_state(times), by_tag(times), by_wait(times), by_pace(times), by_end(times)))


# ---------------------------------------------------------------- what was to be reached


def wanted_of(name: str, call: Call) -> dict:
    """What has to be reached in a call."""
    keys = {("word", name, word): f"{name}'s status word {word:04X}" for word in call.words}
    for row, refusals in REFUSED_BY.items():
        keys |= {("reason", name, row, check): f"{name}: {name_of(row)} refused by check {check}"
                 for check in refusals & {*call.checks}}
    for ins, command in NAMES.items():
        keys["reason", name, ins, 0] = f"{name}: {command} {call.passed}"
        keys["waits", name, ins] = f"{name}: {command} has to wait"
        keys |= {("number", name, ins, number): f"{name}: {command} with number {number}" for number in call.numbers}
    return keys


def wanted() -> dict:
    """What has to be reached, by key, in words."""
    keys = {}
    for name, call in CALLS.items():
        keys |= {("call", name): f"a call of {name}"} | wanted_of(name, call)
    for state, commands in DONE_IN.items():
        keys |= {("done in", ins, state, curve): f"{NAMES[ins]} done, {STATES[state]}, {CURVES[curve]}"
                 for ins in commands for curve in CURVES}
    for ins, once in ONCE.items():
        keys |= {("twice", ins, tag): f"{NAMES[ins]} refused with {tag:02X} twice" for tag in once}
        keys["repeated", ins] = f"{NAMES[ins]} done with a tag twice that it does not read"
        keys["waited", ins] = f"{NAMES[ins]} done after a wait"
    keys |= {("pace", name): name for name in NAMES_OF_PACES}
    return keys | {("end", name): name for name in END_NAMES}


def never(times: Counter) -> list:
    """What was to be reached and was not."""
    return [words for key, words in wanted().items() if not times[key]]


def beyond(times: Counter) -> list:
    """What was reached and cannot be, by the tables above."""
    known = set(wanted()) | {("number", name, row, number) for name in CALLS for row in (OTHER, NONE) for number in (1, 2, 3)}
    return [str(key) for key in times if times[key] and key not in known]

"""What the page has to show of each tap of a recording: by ./play --json, by the twin, by the recording's bytes, which are walked here,
and by the lesson's page, which is read here as lessons/README.md says."""

import json
import re

from reasons import REASONS
from recordings import images_of, taps_of
from rig import play
from twin.card import ask, settle
from twin.commands import DEFAULT_PIN1, DEFAULT_PIN2
from twin.image import CURVE_NAME, SIGNATURE_LENGTH, Card, decode
from twin.questions import Question
from twin.request import number

# The card's values in the order of docs/IMAGE.md, which is the twin's.
NAMES = ("PIN1", "PIN2", "CID", "CVC", "curve", "Max_Signatures", "Activation_Seed", "pause", "reusable", "CVC used", "PIN1 may change",
         "PIN2 may change", "purge prohibited", "issuer replay protection", "activated", "Status", "wallet number", "Remaining",
         "Signed_Hashes", "Wallet_PublicKey", "Check_Wallet_Counter", "Card_Validation_Counter", "User_Counter", "User_ProtectedCounter",
         "User_Data", "User_ProtectedData", "Issuer_Data", "issuer data signature", "issuer data counter", "wrong codes", "seconds left",
         "held request", "last signatures")
FLAGS, LIVING = NAMES[8:15], NAMES[15:]
COUNTERS = (*NAMES[15:19], *NAMES[20:24], *NAMES[28:31])  # the numbers that a tap can change
TAGS = dict(zip(*[iter("""01 CID 02 Status 04 Card_Signature 05 Curve_ID 10 PIN1 11 PIN2 12 New_PIN1 13 New_PIN2 14 Public_Key_Challenge
    15 Public_Key_Salt 16 Challenge 17 Salt 18 Card_Validation_Counter 19 CVC 1C Pause 23 Mode 2A User_Data 2B User_ProtectedData
    2C User_Counter 2D User_ProtectedCounter 32 Issuer_Data 33 Issuer_Data_Signature 34 Activation_Signature 35 Issuer_Data_Counter
    36 Reset_PIN1 3A Is_Activated 3B Activation_Seed 50 Transaction_Hash 51 Transaction_Hash_Size 60 Wallet_PublicKey 61 Signature
    62 Remaining 63 Signed_Hashes 64 Check_Wallet_Counter""".split())] * 2))
COMMANDS = dict(zip(*[iter("""F2 READ_CARD F8 CREATE_WALLET F9 CHECK_WALLET FA SET_PIN FB SIGN F3 VERIFY_CARD F4 VALIDATE_CARD
    FC PURGE_WALLET E1 READ_USER_DATA E0 WRITE_USER_DATA F6 WRITE_ISSUER_DATA F7 READ_ISSUER_DATA FE ACTIVATE_CARD""".split())] * 2))
OUTCOMES = {"none": "∅ no response", "wait": "‖ has to wait", "accepted": "✓ accepted", "refused": "✗ refused"}
SIGNS = {"passed": "✓", "failed": "✗", "later": "·"}


def hexed(some: bytes) -> str:
    return some.hex().upper()


# ---- the card ----


def data_text(data: bytes) -> str:
    """Bytes are shown as text where they are some without control characters."""
    try:
        text = data.decode()
    except UnicodeDecodeError:
        text = "\0"
    return f"{len(data)} byte{'s' * (len(data) != 1)}  {text if text.isprintable() else hexed(data)}"


def code_text(code: bytes) -> str:
    said = {DEFAULT_PIN1: "  (SHA-256 of '000000')", DEFAULT_PIN2: "  (SHA-256 of '000')"}
    return hexed(code) + said.get(code, "")


def signatures_text(some: bytes) -> str:
    return "\n".join(hexed(some[at : at + SIGNATURE_LENGTH]) for at in range(0, len(some), SIGNATURE_LENGTH))


TEXTS = {
    **dict.fromkeys(FLAGS, lambda flag: f"{flag}  {'yes' if flag else 'no'}"),
    **dict.fromkeys(("PIN1", "PIN2"), code_text),
    **dict.fromkeys(("User_Data", "User_ProtectedData", "Issuer_Data"), data_text),
    "CVC": bytes.decode,
    "curve": lambda curve: f"{curve}  {CURVE_NAME[curve].decode()}",
    "pause": lambda seconds: f"{seconds}  second{'s' * (seconds != 1)}",
    "Status": lambda status: f"{status}  {(None, 'Empty', 'Loaded', 'Purged')[status]}",
    "held request": lambda held: f"{len(held)} bytes  {COMMANDS[hexed(held[1:2])]}  {hexed(held)}",
    "last signatures": signatures_text,
}


def text_of(name: str, value) -> str:
    if value == b"":
        return "none"
    return TEXTS.get(name, hexed if isinstance(value, bytes) else str)(value)


def texts_of(card: Card) -> dict:
    return {name: text_of(name, value) for name, value in zip(NAMES, card)}


def card_rows(before: Card, after: Card) -> list:
    """What is changed stands first, then what taps can change, then what the sheet has said."""
    old, new = texts_of(before), texts_of(after)
    changed = [name for name in NAMES if old[name] != new[name]]
    rest = [name for name in (*LIVING, *NAMES[: -len(LIVING)]) if name not in changed]
    return [[name, True, [old[name], new[name]]] for name in changed] + [[name, False, [new[name]]] for name in rest]


def without_change(card: Card) -> list:
    return card_rows(card, card)


def count_text(changed: int) -> str:
    return "Card: " + ("nothing changed" if changed == 0 else f"{changed} value{'s' * (changed != 1)} changed")


# ---- messages ----


def part(name: str, some: bytes, tag: str = "", head: bytes = b"") -> dict:
    return {"name": name, "tag": tag, "hex": hexed(some), "shown": hexed(head + some), "label": f"{name or '?'} {tag}" if tag else name}


def fields_from(message: bytes, at: int) -> list:
    """Of one in which the bytes end all that there is of it is one part."""
    found = []
    while at < len(message):
        start, length = at + 2, number(message[at + 1 : at + 2])
        if length == 0xFF:
            start, length = at + 4, number(message[at + 2 : at + 4])
        tag = hexed(message[at : at + 1])
        cut = start + length > len(message)
        head, value = (b"", message[at:]) if cut else (message[at:start], message[start : start + length])
        found.append(part(TAGS.get(tag), value, tag, head))
        at = start + length
    return found


def request_parts(request: bytes) -> list:
    behind = 7 if request[4:5] == b"\0" else 5
    head = [part(name, request[at : at + 1]) for at, name in enumerate(("CLA", "INS", "P1", "P2"))]
    return [*head, part("Lc", request[4:behind]), *fields_from(request, behind)]


def response_parts(told: dict) -> list:
    """By the fields of ./play --json; None where there is no response."""
    if told["response"] is None:
        return None
    fields = [(one["tag"], one["name"], one["hex"]) for one in told["fields"]]
    walked = fields_from(bytes.fromhex(told["response"][:-4]), 0)
    assert fields == [(one["tag"], one["name"], one["hex"]) for one in walked], told
    return [*walked, part("status word", bytes.fromhex(told["word"]))]


def questions_of(image: bytes, request: bytes, draw: bytes) -> list:
    """Those of the twin, one by one."""
    asked, found = ask(image, request, draw).questions, []
    while asked:
        end = 6 + number(asked[4:6])
        found.append(Question(asked[0], number(asked[1:3]), asked[3], asked[6:end]))
        asked = asked[end:]
    return found


def asked_of(image: bytes, request: bytes, draw: bytes, answers: bytes) -> list:
    """Each question's bytes, and its answer, cut off by the length that it has to have."""
    found = []
    for one in questions_of(image, request, draw):
        found.append((hexed(one.encoded()), hexed(answers[: one.answer_length()]) or "none"))
        answers = answers[one.answer_length() :]
    return found


# ---- the wait ----


def waits_of(images: list, requests: list) -> list:
    """Of each tap that is part of a wait the seconds left after it, and those at its first sending: by what the card holds."""
    found, first = [], 0
    for before, after, request in zip(map(decode, images), map(decode, images[1:]), requests):
        goes_on = before.held_request == request
        if not goes_on or after.seconds_left > before.seconds_left:
            first = after.seconds_left
        found.append((after.seconds_left, first) if goes_on or after.seconds_left else None)
    return found


# ---- checks and outcome ----


def outcome_of(word) -> str:
    if word is None:
        return "none"
    return "wait" if word == "9789" else "accepted" if word in ("9000", "9001", "9002", "9003") else "refused"


def states_of(word, reason: int, asked: list) -> list:
    """Of each check whether the tap has passed it. Behind check 10 the card makes its holder wait, behind check 12 it asks."""
    if word is None:
        return ["passed" if asked else "later"] * 12 + ["later"]
    if word == "9789":
        return ["passed"] * 10 + ["later"] * 3
    return ["passed"] * 13 if not reason else ["passed"] * (reason - 1) + ["failed"] + ["later"] * (13 - reason)


def refusal_text(number: int) -> str:
    return REASONS[number]


# ---- the plots ----


def counter_sent(request: bytes):
    """The counter of a note that has one, once and of four bytes."""
    found = [one["hex"] for one in request_parts(request) if one["tag"] == "35"]
    return found[0] if request[1:2] == b"\xf6" and list(map(len, found)) == [8] else None


def plots_of(card: Card, notes: list) -> list:
    """`notes` are the counters sent so far, each with whether it was stored."""
    stored = f"{card.issuer_data_counter:08X}"
    latest = f" {'● sent and stored' if notes[-1][1] else '✕ sent'} {notes[-1][0]}" if notes else ""
    taken = sum(taken for _, taken in notes)
    return [["Issuer_Data_Counter", card.issuer_data_counter, f"Issuer_Data_Counter — stored {stored}{latest}", taken, len(notes) - taken],
            ["Remaining", card.remaining, f"Remaining {card.remaining}", 0, 0],
            ["Signed_Hashes", card.signed_hashes, f"Signed_Hashes {card.signed_hashes}", 0, 0]]


# ---- the trainer's words ----


def plain(text: str) -> str:
    return re.sub(r"\[([^]]+)\]\([^)]+\)", r"\1", text).replace("**", "").replace("`", "")


class Words:
    """The page of a lesson: what is said before the first tap, and to each."""

    def __init__(self, path):
        text = path.with_suffix(".md").read_text()
        head, _, rest = text.partition("\n## Tap by tap\n")
        lines = head.split("\n```")[0].split("\n## ")[0].splitlines()
        self.title = next(line[2:] for line in lines if line.startswith("# "))
        self.question = next(line[2:] for line in lines if line.startswith("> "))
        self.introduction = [plain(line) for line in lines if line and line[:2] not in ("# ", "> ")]
        self.taps, above, fenced = {}, [], False
        for line in filter(None, rest.split("\n## ")[0].splitlines()):
            tap = re.match(r"(\d+)\. \*\*(.+?)\*\* ?(.*)", line)
            if line.startswith("```"):
                fenced = not fenced
                above = above[: len(above) - fenced]  # the line that leads to a block goes with it
            elif tap and not fenced:
                self.taps[int(tap[1])], above = (above, tap[2], tap[3]), []
            elif not fenced:
                above = [*above, line]

    def told(self, tap: int) -> list:
        """Paragraphs, title and text, without the marks of Markdown."""
        above, title, text = self.taps[tap]
        return [plain(one) for one in (*above, title, text)]

    def codes(self, tap: int) -> list:
        above, title, text = self.taps[tap]
        return [code for one in (*above, title, text) for code in re.findall("`([^`]+)`", one)]

    def sender(self, tap: int):
        found = re.search(r"tablet \d|the engineer", self.taps[tap][1], re.IGNORECASE)
        return f"{found[0].capitalize()} sends" if found else None


# ---- all of a recording ----


class Expected:
    """A recording: what ./play --json tells of its taps, and the twin's cards and reasons."""

    def __init__(self, recording: bytes):
        *self.told, self.sums = [json.loads(line) for line in play("--json", input=recording).stdout.splitlines()]
        self.images = images_of(recording)
        self.cards = [decode(image) for image in self.images]
        self.lines = [tuple(map(bytes.fromhex, line.split("\t")[:3])) for line in taps_of(recording)]
        self.requests = [line[0] for line in self.lines]
        self.reasons = [settle(image, *line).reason for image, line in zip(self.images, self.lines)]
        self.waits = waits_of(self.images, self.requests)
        self.notes = [(counter_sent(request), one["word"] == "9000") for request, one in zip(self.requests, self.told)]

    def plots(self, tap: int) -> list:
        return plots_of(self.cards[tap], [note for note in self.notes[:tap] if note[0]])

    def card(self, tap: int) -> list:
        return card_rows(self.cards[max(tap - 1, 0)], self.cards[tap])

"""The case file of the program `taps` and what the program must print, written side by side by the twin."""

from collections import Counter

from twin import card as twin
from twin.bench import DRAW, Provider
from twin.image import Card, encode

LONGEST_LINE = 8192
STANDARD_ROOMS = (twin.QUESTIONS_ROOM, twin.RESPONSE_ROOM, twin.IMAGE_ROOM)


def hexed(value: bytes) -> str:
    return value.hex().upper()


def runs(old: bytes, new: bytes) -> list:
    """The longest runs of places where two images of one length differ: offset and the new bytes."""
    found, start = [], None
    for at in range(len(new) + 1):
        differs = at < len(new) and old[at] != new[at]
        if differs and start is None:
            start = at
        elif not differs and start is not None:
            found.append((start, new[start:at]))
            start = None
    return found


def asked_line(asked: twin.Asked) -> str:
    written = asked.questions
    return f"A\t{asked.number}\t{asked.reason}\t{asked.word:04X}\t{len(written)}\t{hexed(written)}"


def changes(before: bytes, after) -> str:
    changed = [] if after is None else runs(before, after)
    return " ".join(f"{offset:04X}:{hexed(new)}" for offset, new in changed)


def settled_line(settled: twin.Settled, before: bytes) -> str:
    written = settled.response
    head = f"S\t{settled.number}\t{settled.reason}\t{settled.word:04X}\t{len(written)}"
    return f"{head}\t{hexed(written)}\t{changes(before, settled.image)}"


def powered_off_line(off: twin.Settled, before: bytes) -> str:
    return f"O\t{off.number}\t{off.reason}\t{off.word:04X}\t{len(off.response)}\t{changes(before, off.image)}"


class Script:
    def __init__(self):
        self.stdin, self.stdout = [], []
        self.image, self.rooms = b"", STANDARD_ROOMS
        self.provider = Provider()
        self.calls, self.reasons, self.waits = Counter(), Counter(), Counter()

    def line(self, *parts: str):
        self.stdin.append("\t".join(parts))
        assert len(self.stdin[-1]) <= LONGEST_LINE, parts[0]

    def say(self, words: str):
        self.line("# " + words)
        self.stdout.append("# " + words)

    # ------------------------------------------------------------ what the calls are lent

    def use(self, image):
        """Makes this card, or these bytes, the current image, by the shorter of one `I` and some `W`."""
        wanted = encode(image) if isinstance(image, Card) else image
        assert wanted is image or twin.is_card(wanted), image
        changes = runs(self.image, wanted) if len(wanted) == len(self.image) else None
        if changes is None or sum(4 + len(new) for _, new in changes) > len(wanted):
            self.line("I", hexed(wanted))
        else:
            for offset, new in changes:
                self.line("W", f"{offset:04X}", hexed(new))
        self.image = wanted

    def lend(self, *rooms: int):
        """Buffers of these lengths from here on: questions, response, next image. None: the standard ones."""
        self.rooms = rooms or STANDARD_ROOMS
        self.line("L", *(f"{room:04X}" for room in self.rooms))

    # ------------------------------------------------------------ the calls

    def ask(self, request: bytes, draw: bytes = DRAW) -> twin.Asked:
        asked = twin.ask(self.image, request, draw, self.rooms[0])
        self.line("A", hexed(request), hexed(draw))
        self.stdout.append(asked_line(asked))
        self.calls["A"] += 1
        return asked

    def settle(self, request: bytes, answers: bytes = b"", draw: bytes = DRAW) -> twin.Settled:
        settled = twin.settle(self.image, request, draw, answers, *self.rooms[1:])
        self.line("S", hexed(request), hexed(draw), hexed(answers))
        self.stdout.append(settled_line(settled, self.image))
        self.image = self.image if settled.image is None else settled.image
        self.calls["S"] += 1
        ins = request[1] if len(request) > 1 else None
        if settled.word == twin.SW_NEED_PAUSE:
            self.waits[ins] += 1
        else:
            self.reasons[ins, settled.number, settled.reason] += 1
        return settled

    def power_off(self) -> twin.Settled:
        off = twin.power_off(self.image, self.rooms[2])
        self.line("O")
        self.stdout.append(powered_off_line(off, self.image))
        self.image = self.image if off.image is None else off.image
        self.calls["O"] += 1
        return off

    def tap(self, request: bytes, draw: bytes = DRAW) -> twin.Settled:
        """Both calls. A command that passes gets fitting answers, one that is refused or has to wait gets bytes that fit nothing."""
        asked = self.ask(request, draw)
        answers = b"\xee" if asked.reason or asked.word == twin.SW_NEED_PAUSE else self.provider.answers(asked.questions)
        return self.settle(request, answers, draw)

    def case(self, words: str, card, *requests: bytes) -> twin.Settled:
        """One titled case: the requests one after another, starting from this card (None: from the current one)."""
        self.say(words)
        if card is not None:
            self.use(card)
        return [self.tap(request) for request in requests][-1]

    def case_settled(self, words: str, card, request: bytes, answers: bytes) -> twin.Settled:
        """One titled case of settle alone, with answers of its own."""
        self.say(words)
        self.use(card)
        return self.settle(request, answers)

    # ------------------------------------------------------------ the two files

    def texts(self) -> tuple:
        return "\n".join(self.stdin) + "\n", "\n".join(self.stdout) + "\n"

"""The proved card and the twin, given the same calls and compared: the result, and the whole of each lent buffer."""

from twin import card as twin
from twin.chance import Chance
from twin.proved import NUMBER, RESULT, Gone, Proved
from twin.reached import Reached

ROOMS = (twin.QUESTIONS_ROOM, twin.RESPONSE_ROOM, twin.IMAGE_ROOM)


class Differs(Exception):
    """The two cards answered one call differently, or the proved one did not answer."""


def shown(names: str, parts: tuple) -> str:
    return "".join(f"\n    {name:10}{part.hex().upper()}" for name, part in zip(names.split(), parts))


def first_difference(expected: bytes, got: bytes) -> str:
    at = next(at for at in range(len(expected)) if expected[at] != got[at])
    return f"byte {at} of result and buffers: twin {expected[at:at + 16].hex().upper()}, card {got[at:at + 16].hex().upper()}"


class Pair:
    """The proved card and the twin, given the same calls."""

    def __init__(self, proved: Proved, chance: Chance):
        self.proved, self.chance, self.reached, self.calls = proved, chance, Reached(), 0
        self.filling = chance.randbytes(1 << 15)

    def lent(self, length: int) -> bytes:
        """A buffer of this length with bytes in it."""
        start = self.chance.randrange(len(self.filling) - length)
        return self.filling[start : start + length]

    def compare(self, expected: bytes, call, parts: tuple, names: str):
        self.calls += 1
        try:
            got = call(*parts)
        except Gone as gone:
            raise Differs(f"{call.__name__}: {gone}" + shown(names, parts))
        if got != expected:
            raise Differs(f"{call.__name__}: {first_difference(expected, got)}" + shown(names, parts))

    def ask(self, image: bytes, request: bytes, draw: bytes, room: int) -> twin.Asked:
        questions = self.lent(room)
        asked = twin.ask(image, request, draw, room)
        written = len(asked.questions)
        expected = RESULT.pack(asked.number, asked.reason, asked.word, written) + asked.questions + questions[written:]
        self.compare(expected, self.proved.ask, (image, request, draw, questions), "image request draw questions")
        self.reached.called("ask", request, asked)
        return asked

    def settle(self, image, request, draw, answers, response_room, next_room) -> twin.Settled:
        response, following = self.lent(response_room), self.lent(next_room)
        settled = twin.settle(image, request, draw, answers, response_room, next_room)
        written, left = len(settled.response), settled.image or b""
        expected = (RESULT.pack(settled.number, settled.reason, settled.word, written)
                    + settled.response + response[written:] + left + following[len(left) :])
        self.compare(expected, self.proved.settle, (image, request, draw, answers, response, following),
                     "image request draw answers response next")
        self.reached.called("settle", request, settled)
        return settled

    def power_off(self, image: bytes, next_room: int) -> twin.Settled:
        following = self.lent(next_room)
        off = twin.power_off(image, next_room)
        left = off.image or b""
        expected = RESULT.pack(off.number, off.reason, off.word, len(off.response)) + left + following[len(left) :]
        self.compare(expected, self.proved.power_off, (image, following), "image next")
        return off

    def personalise(self, sheet: bytes, room: int) -> int:
        lent = self.lent(room)
        answer, image = twin.personalise(sheet, room)
        left = image or b""
        self.compare(NUMBER.pack(answer) + left + lent[len(left) :], self.proved.personalise, (sheet, lent), "sheet image")
        self.reached.times["sheet", answer] += 1
        return answer

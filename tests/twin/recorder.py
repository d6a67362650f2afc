"""Recordings as the program `plays` reads them, and the way back from its input to the recordings."""

from twin.bench import CID, CVC, DRAW, PIN1, PIN2, SEED, Provider
from twin.card import ask, personalise
from twin.recording import Play
from twin.script import hexed

LONGEST_INPUT = 8300
USUAL_SHEET = dict(
    cid=hexed(CID), pin1=hexed(PIN1), pin2=hexed(PIN2), cvc=CVC.decode(), curve="secp256k1", max="1000", reusable="1",
    usecvc="0", setpin1="1", setpin2="1", nopurge="0", replay="1", active="1", seed=hexed(SEED),
)


def sheet_lines(**values) -> list:
    """The lines of the usual sheet, but for the values given, each without its line feed. A `pause` comes last."""
    return [f"{name}\t{value}".encode() for name, value in {**USUAL_SHEET, **values}.items()]


def tap_line(request: bytes, draw: bytes, answers: bytes, expected: str) -> bytes:
    return "\t".join((hexed(request), hexed(draw), hexed(answers), expected)).encode()


def waiting(seconds: int) -> str:
    """Pause, in units of 10 ms, and its status word."""
    return f"1C02{100 * seconds:04X}9789"


class Recording:
    """Pieces of text, and a card of its own that tells what each tap has to expect.

    `bad` is the line at which the play has to end, 0 where it has to come to the sums.
    """

    def __init__(self, name: str, bad: int = 0):
        self.name, self.bad, self.pieces = name, bad, []
        self.play, self.provider = None, Provider()

    def sheet(self, **values) -> "Recording":
        lines = sheet_lines(**values)
        for line in lines:
            self.line(line)
        self.play = Play(personalise(b"\n".join(lines) + b"\n")[1])
        return self

    def line(self, text: bytes, times: int = 1):
        assert b"\n" not in text, text
        self.pieces.append((text + b"\n", times))

    def part(self, text: bytes, times: int = 1):
        """Text with no line feed after it."""
        assert b"\n" not in text, text
        self.pieces.append((text, times))

    def tap(self, request: bytes, answers: bytes = None, draw: bytes = DRAW, expected=None, times: int = 1) -> str:
        """A tap that is answered as this card has to, if no answers are given, and expects what this card says.

        `expected` is another text, or makes another text out of the response.
        """
        sent = request, draw, self.fitting(request, draw) if answers is None else answers
        [response] = {self.play.tap(*sent) for _ in range(times)}
        if expected is None:
            expected = response
        elif callable(expected):
            expected = expected(response)
        self.line(tap_line(*sent, expected), times)
        return response

    def tap_after(self, seconds: int, request: bytes, answers: bytes = None) -> str:
        """A request that has to wait so long, sent as often, and once more. The answers are those of every sending."""
        for left in range(seconds, 0, -1):
            response = self.tap(request, answers)
            assert response == waiting(left), (self.name, left, response)
        return self.tap(request, answers)

    def fitting(self, request: bytes, draw: bytes) -> bytes:
        return self.provider.answers(ask(self.play.image, request, draw).questions)

    def text(self) -> bytes:
        return b"".join(text * times for text, times in self.pieces)

    def input(self) -> bytes:
        return b"C\t%s\n" % self.name.encode() + b"".join(written(*piece) for piece in self.pieces) + b"E\n"


def written(text: bytes, times: int) -> bytes:
    """The line of input for a piece."""
    whole = text.endswith(b"\n")
    letter = (b"L" if whole else b"T") if times == 1 else (b"N" if whole else b"R")
    count = b"" if times == 1 else b"\t%d" % times
    line = letter + count + b"\t" + text.rstrip(b"\n")
    assert len(line) <= LONGEST_INPUT, line[:60]
    return line + b"\n"


def recordings_of(stdin: bytes):
    """The name and the text of every recording in the program's input."""
    for line in stdin.split(b"\n")[:-1]:
        letter, _, rest = line.partition(b"\t")
        count = 1
        if letter in (b"N", b"R"):
            digits, _, rest = rest.partition(b"\t")
            count = int(digits)
        if letter == b"C":
            name, text = rest.decode(), []
        elif letter == b"E":
            yield name, b"".join(text)
        else:
            text.append((rest + (b"\n" if letter in (b"L", b"N") else b"")) * count)

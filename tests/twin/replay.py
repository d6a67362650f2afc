"""The program `taps` over the twin. It reads the case file alone, and so shows that the file says all it means."""

from twin import card as twin
from twin.script import STANDARD_ROOMS, asked_line, powered_off_line, settled_line


class Replay:
    def __init__(self):
        self.image, self.rooms = b"", STANDARD_ROOMS

    def run(self, stdin: str) -> str:
        return "".join(self.step(line) for line in stdin.splitlines())

    def step(self, line: str) -> str:
        if line.startswith("#"):
            return line + "\n"
        letter, *parts = line.split("\t")
        steps = {"I": self.new, "W": self.overwrite, "L": self.lend, "A": self.ask, "S": self.settle, "O": self.power_off}
        return steps[letter](*parts)

    def new(self, image: str) -> str:
        self.image = bytes.fromhex(image)
        return ""

    def overwrite(self, offset: str, new: str) -> str:
        start, end = int(offset, 16), int(offset, 16) + len(new) // 2
        self.image = self.image[:start] + bytes.fromhex(new) + self.image[end:]
        return ""

    def lend(self, *rooms: str) -> str:
        self.rooms = tuple(int(room, 16) for room in rooms)
        return ""

    def ask(self, *parts: str) -> str:
        return asked_line(twin.ask(self.image, *map(bytes.fromhex, parts), self.rooms[0])) + "\n"

    def settle(self, *parts: str) -> str:
        before, settled = self.image, twin.settle(self.image, *map(bytes.fromhex, parts), *self.rooms[1:])
        self.image = before if settled.image is None else settled.image
        return settled_line(settled, before) + "\n"

    def power_off(self) -> str:
        before, off = self.image, twin.power_off(self.image, self.rooms[2])
        self.image = before if off.image is None else off.image
        return powered_off_line(off, before) + "\n"

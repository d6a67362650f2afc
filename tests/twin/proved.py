"""The proved card, behind the process of host/serve/serve.c, whose head tells the form of its calls."""

import subprocess
import struct

NUMBER = struct.Struct(">I")
RESULT = struct.Struct(">BBHI")


class Gone(Exception):
    """The process ended in the middle of a call."""


class Proved:
    def __init__(self, command: list):
        self.process = subprocess.Popen(command, stdin=subprocess.PIPE, stdout=subprocess.PIPE, bufsize=1 << 16)

    def call(self, letter: bytes, answer_length: int, given: tuple, lent: tuple = ()) -> bytes:
        """The answer as it comes: the result, then the lent buffers whole."""
        parts = [letter]
        for part in given + lent:
            parts += (NUMBER.pack(len(part)), part)
        wanted = answer_length + sum(map(len, lent))
        try:
            self.process.stdin.write(b"".join(parts))
            self.process.stdin.flush()
            answer = self.process.stdout.read(wanted)
        except OSError:
            answer = b""
        if len(answer) != wanted:
            raise Gone(f"the process ended with {self.process.wait()}")
        return answer

    def ask(self, image, request, draw, questions) -> bytes:
        return self.call(b"A", RESULT.size, (image, request, draw), (questions,))

    def settle(self, image, request, draw, answers, response, following) -> bytes:
        return self.call(b"S", RESULT.size, (image, request, draw, answers), (response, following))

    def power_off(self, image, following) -> bytes:
        return self.call(b"O", RESULT.size, (image,), (following,))

    def personalise(self, sheet, image) -> bytes:
        return self.call(b"P", NUMBER.size, (sheet,), (image,))

    def image_length(self) -> int:
        return NUMBER.unpack(self.call(b"L", NUMBER.size, ()))[0]

    def close(self):
        self.process.stdin.close()
        self.process.wait()

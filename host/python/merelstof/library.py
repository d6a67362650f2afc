"""The proved library's five calls, in two ways: loaded into this process, or served by another.

The library is x86-64 code. A Python on x86-64 loads it as a shared object; any other talks with `serve`, a small x86-64 program that
runs under qemu-x86_64. Both ways take and give the same bytes and keep nothing between calls, so that threads may call as they like.
"""

import atexit
import contextlib
import ctypes
import functools
import os
import pathlib
import platform
import shutil
import struct
import subprocess
import threading
from typing import NamedTuple

ROOM = 2048
IMAGE_ROOM = 4096
LONGEST = 65536  # what serve takes as one part; the loaded library would take more
HERE = pathlib.Path(__file__).resolve().parent
# Where the library's files stand: in an installed package, or in the project after host/build.
PLACES = (HERE / "lib", HERE.parent.parent.parent / "target" / "host" / "lib")


class NoLibrary(OSError):
    """The library is not there, cannot be used on this machine, or its process ended."""


class Asked(NamedTuple):
    number: int
    reason: int
    word: int
    questions: bytes


class Settled(NamedTuple):
    """With a number other than 0 there is neither a response nor a next image."""

    number: int
    reason: int
    word: int
    response: bytes
    image: bytes


# The result of a call as serve packs it: number, reason, word and length, or one number.
OUTCOME = struct.Struct(">BBHI")
NUMBER = struct.Struct(">I")


class Call(NamedTuple):
    name: str
    letter: bytes
    given: int  # parts that are read
    rooms: tuple  # lent buffers that are written
    result: struct.Struct


ASK = Call("practice_ask", b"A", 3, (ROOM,), OUTCOME)
SETTLE = Call("practice_settle", b"S", 4, (ROOM, IMAGE_ROOM), OUTCOME)
POWER_OFF = Call("practice_power_off", b"O", 1, (IMAGE_ROOM,), OUTCOME)
PERSONALISE = Call("practice_personalise", b"P", 1, (IMAGE_ROOM,), NUMBER)
IMAGE_LENGTH = Call("practice_image_length", b"L", 0, (), NUMBER)


class Library:
    """The calls, over bytes. host/link/practice.h says what each means."""

    def ask(self, image: bytes, request: bytes, draw: bytes) -> Asked:
        number, reason, word, length, questions = self.call(ASK, image, request, draw)
        return Asked(number, reason, word, questions[:length])

    def settle(self, image: bytes, request: bytes, draw: bytes, answers: bytes) -> Settled:
        number, reason, word, length, response, following = self.call(SETTLE, image, request, draw, answers)
        return Settled(number, reason, word, response[:length], following[: self.image_length] if number == 0 else b"")

    def power_off(self, image: bytes) -> tuple:
        """The number, and with 0 the card's image once its power is off."""
        number, _, _, _, following = self.call(POWER_OFF, image)
        return number, following[: self.image_length] if number == 0 else b""

    def personalise(self, sheet: bytes) -> tuple:
        """The number of the first bad line, or 0 and the fresh card's image."""
        line, image = self.call(PERSONALISE, sheet)
        return line, image[: self.image_length] if line == 0 else b""

    @functools.cached_property
    def image_length(self) -> int:
        return self.call(IMAGE_LENGTH)[0]

    def call(self, call: Call, *given: bytes) -> tuple:
        """The numbers of the result, then each lent buffer whole."""
        for part in given:
            if len(part) > LONGEST:
                raise ValueError(f"{len(part)} bytes are more than the {LONGEST} that a call takes")
        return self.run(call, given)

    def run(self, call: Call, given: tuple) -> tuple:
        raise NotImplementedError


class Result(ctypes.Structure):
    """practice_result of practice.h."""

    _fields_ = [("number", ctypes.c_uint8), ("reason", ctypes.c_uint8), ("word", ctypes.c_uint16), ("length", ctypes.c_uint32)]


class Loaded(Library):
    """The shared object in this process."""

    def __init__(self, path):
        try:
            self.code = ctypes.CDLL(str(path))
        except OSError as why:
            raise NoLibrary(f"{path} cannot be loaded: {why}") from None
        for call in (ASK, SETTLE, POWER_OFF, PERSONALISE, IMAGE_LENGTH):
            function = getattr(self.code, call.name)
            function.argtypes = [ctypes.c_char_p, ctypes.c_size_t] * (call.given + len(call.rooms))
            function.restype = Result if call.result is OUTCOME else ctypes.c_uint32

    def run(self, call: Call, given: tuple) -> tuple:
        """The pointer that ctypes makes from bytes is never NULL, also not from none: the library asks for that."""
        lent = [ctypes.create_string_buffer(room) for room in call.rooms]
        words = [word for part in (*given, *lent) for word in (part, len(part))]
        result = getattr(self.code, call.name)(*words)
        numbers = (result.number, result.reason, result.word, result.length) if call.result is OUTCOME else (result,)
        return *numbers, *(buffer.raw for buffer in lent)


class Served(Library):
    """The library in a process of host/serve/serve.c, started by the first call. The head of that file tells the form of a call."""

    def __init__(self, command: list):
        self.command = command
        self.begin()
        os.register_at_fork(after_in_child=self.begin)  # a pipe with two at its end would mix up their answers
        atexit.register(self.end)

    def begin(self):
        self.lock, self.process = threading.Lock(), None

    def end(self):
        process, self.process = self.process, None
        if process:
            with contextlib.suppress(OSError):
                process.stdin.close()
            process.stdout.close()
            process.wait()

    def started(self) -> subprocess.Popen:
        """Out of the terminal's reach: Ctrl-C is for this process, which ends the other."""
        try:
            return subprocess.Popen(self.command, stdin=subprocess.PIPE, stdout=subprocess.PIPE, start_new_session=True)
        except OSError as why:
            raise NoLibrary(f"{self.command[0]} cannot be started: {why}") from None

    def run(self, call: Call, given: tuple) -> tuple:
        message, cuts = [call.letter], [call.result.size]
        for part in (*given, *map(bytes, call.rooms)):
            message += (NUMBER.pack(len(part)), part)
        for room in call.rooms:
            cuts.append(cuts[-1] + room)
        with self.lock:
            said = self.exchange(b"".join(message), cuts[-1])
        return *call.result.unpack_from(said), *(said[start:stop] for start, stop in zip(cuts, cuts[1:]))

    def exchange(self, message: bytes, wanted: int) -> bytes:
        """A call that is broken off, by whatever exception, ends the process: half an answer may not be the next call's."""
        self.process = self.process or self.started()
        said = b""
        try:
            with contextlib.suppress(OSError):
                self.process.stdin.write(message)
                self.process.stdin.flush()
                said = self.process.stdout.read(wanted)
        finally:
            if len(said) != wanted:
                self.end()
        if len(said) != wanted:
            raise NoLibrary(f"{' '.join(self.command)} ended in a call; the next call starts it anew")
        return said


def find(*names: str) -> pathlib.Path:
    """The first of these files. MERELSTOF_LIB names the one folder to look in."""
    places = [pathlib.Path(os.environ["MERELSTOF_LIB"])] if os.environ.get("MERELSTOF_LIB") else PLACES
    for path in (place / name for place in places for name in names):
        if path.is_file():
            return path
    raise NoLibrary(f"{names[-1]} is not in {' or '.join(map(str, places))}: host/build makes it, or MERELSTOF_LIB names its folder")


def loaded() -> Loaded:
    return Loaded(find("libpractice.so"))


def served() -> Served:
    program = str(find(".x86-64/serve", "serve"))
    if platform.machine() == "x86_64":
        return Served([program])
    emulator = shutil.which("qemu-x86_64")
    if emulator is None:
        raise NoLibrary(f"this machine is {platform.machine()}, the library x86-64: qemu-x86_64 is wanted (Debian: qemu-user)")
    return Served([emulator, program])


@functools.lru_cache(maxsize=None)
def library() -> Library:
    """This machine's way, or that of MERELSTOF_WAY: loaded or served."""
    way = os.environ.get("MERELSTOF_WAY") or ("loaded" if platform.machine() == "x86_64" else "served")
    ways = {"loaded": loaded, "served": served}
    if way not in ways:
        raise NoLibrary(f"MERELSTOF_WAY is {way}: it may be loaded or served")
    return ways[way]()

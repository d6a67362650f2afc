"""What the tests of the reader share: the process, a client of `reader --tcp`, and requests to send."""

import contextlib
import pathlib
import re
import socket
import subprocess
import time

from rig import BUILT

from twin.bench import CHECK_WALLET, CREATE_WALLET, READ_CARD, READ_USER_DATA, SIGN, WRITE_USER_DATA, header, join, long_lc, short_lc
from twin.image import decode
from twin.sheet import personalise

SECONDS = 20

# ---------------------------------------------------------------- processes


def start(log: pathlib.Path, *words) -> subprocess.Popen:
    return subprocess.Popen([str(word) for word in words], stdout=open(log, "wb"), stderr=subprocess.STDOUT)


def stop(process: subprocess.Popen) -> int:
    """Its status."""
    process.terminate()
    try:
        return process.wait(10)
    except subprocess.TimeoutExpired:
        process.kill()
        return process.wait()


@contextlib.contextmanager
def running(log: pathlib.Path, *words):
    """The process, which ends with the block."""
    process = start(log, *words)
    try:
        yield process
    finally:
        stop(process)


def wait_for(holds, seconds: float = 15) -> bool:
    latest = time.monotonic() + seconds
    while not holds() and time.monotonic() < latest:
        time.sleep(0.02)
    return bool(holds())


# ---------------------------------------------------------------- reader --tcp


@contextlib.contextmanager
def on_port(log: pathlib.Path, card: pathlib.Path, *options):
    """`reader --tcp 0` with this card: the process and its port."""
    with running(log, BUILT / "reader", "--tcp", "0", *options, card) as process:
        if not wait_for(lambda: log.read_text().count("\n") or process.poll() is not None):
            raise RuntimeError("the reader does not listen")
        line = re.match(rf"{re.escape(str(card))} answers on 127\.0\.0\.1 port (\d+)\n", log.read_text())
        if not line:
            raise RuntimeError(log.read_text())
        yield process, int(line[1])


def framed(request: bytes) -> bytes:
    return len(request).to_bytes(2, "big") + request


class Client:
    """One connection."""

    def __init__(self, port: int):
        self.socket = socket.create_connection(("127.0.0.1", port), timeout=SECONDS)

    def __enter__(self):
        return self

    def __exit__(self, *_):
        self.socket.close()

    def take(self, length: int) -> bytes:
        got = b""
        while len(got) < length:
            more = self.socket.recv(length - len(got))
            if not more:
                raise EOFError(f"the connection ended after {got.hex()}")
            got += more
        return got

    def answer(self) -> bytes:
        return self.take(int.from_bytes(self.take(2), "big"))

    def send(self, request: bytes) -> bytes:
        self.socket.sendall(framed(request))
        return self.answer()


# ---------------------------------------------------------------- requests


def made(ins: int, *fields, form=short_lc) -> bytes:
    return header(ins) + form(join(fields))


def requests_of(sheet: pathlib.Path) -> tuple:
    """With the one-byte Lc, which is all that opensc-tool knows, and with the other."""
    card = decode(personalise(sheet.read_bytes())[1])
    access, confirm = ((0x10, card.pin1), (0x01, card.cid)), ((0x11, card.pin2), (0x19, card.cvc))
    short = [
        made(READ_CARD, *access),
        made(CREATE_WALLET, *access, *confirm),
        made(CHECK_WALLET, *access, (0x16, bytes(range(16)))),
        made(SIGN, *access, *confirm, (0x50, bytes(range(32))), (0x51, b"\x20")),
        made(0xF5, *access),
    ]
    extended = [
        made(READ_CARD, *access, form=long_lc),
        made(SIGN, *access, *confirm, (0x50, bytes(320)), (0x51, b"\x20"), form=long_lc),
        made(SIGN, *access, *confirm, form=long_lc),
        made(CHECK_WALLET, *access, (0x16, bytes(16)), (0x14, bytes(range(16))), form=long_lc),
        made(WRITE_USER_DATA, *access, *confirm, (0x2A, bytes(512)), (0x2B, b"protected"), form=long_lc),
        made(READ_USER_DATA, *access, form=long_lc),
        made(READ_CARD, (0x10, bytes(32)), form=long_lc),
        b"\0\xf2\0\0\0",
        *[made(READ_CARD, *access, form=long_lc)] * 2,  # the wrong PIN1 costs a second, and so a sending
    ]
    return short, extended

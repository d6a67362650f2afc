"""What the tests of the host share: named checks, the programs of target/host, ./play and its memory, ./handover, cards in a folder of
their own."""

import contextlib
import fcntl
import os
import pathlib
import re
import shutil
import subprocess
import sys
import tempfile
import termios
import time

ROOT = pathlib.Path(__file__).resolve().parent.parent.parent
BUILT = ROOT / os.environ.get("BUILT", "target/host")  # host/test says which programs are tested
SHEETS = {curve: ROOT / "host" / "examples" / f"{curve}.sheet" for curve in ("secp256k1", "ed25519")}

sys.path.insert(0, str(ROOT / "tests"))

failures = 0


def check(name: str, holds, why: str = "") -> bool:
    global failures
    failures += not holds
    print(f"ok {name}" if holds else f"FAIL {name}: {why[:600]}", flush=True)
    return bool(holds)


def same(name: str, got, expected) -> bool:
    return check(name, got == expected, f"got {got!r}, expected {expected!r}")


def end() -> None:
    sys.exit(1 if failures else 0)


def run(program: str, *words, **more) -> subprocess.CompletedProcess:
    return subprocess.run([str(BUILT / program), *map(str, words)], capture_output=True, timeout=60, **more)


def tap(*words, **more) -> subprocess.CompletedProcess:
    return run("tap", *words, **more)


def play(*words, **more) -> subprocess.CompletedProcess:
    return subprocess.run([str(ROOT / "play"), *map(str, words)], capture_output=True, timeout=600, **more)


def build_player() -> None:
    """The first play proves and builds the player, takes minutes and says so; afterwards ./play prints the recording's lines alone."""
    subprocess.run([str(ROOT / "play")], input=b"", stdout=subprocess.DEVNULL)


def handover(*words, **more) -> subprocess.CompletedProcess:
    return subprocess.run([ROOT / "handover", *words], capture_output=True, timeout=600, **more)


def build_joiner() -> None:
    """As build_player, for the program that ./handover runs."""
    subprocess.run([ROOT / "handover", "--check", "/dev/null"], stdout=subprocess.DEVNULL)


@contextlib.contextmanager
def fed(printed):
    """./play with a pipe into it: the process, the end that is written, and the end that tells what waits to be read."""
    taken, given = os.pipe()
    with subprocess.Popen([ROOT / "play"], stdin=taken, stdout=printed) as shell, open(given, "wb") as feed:
        yield shell, feed, taken
    os.close(taken)


def give(feed, some: bytes, taken: int) -> None:
    """Writes this, and waits until all of it has been read."""
    feed.write(some)
    feed.flush()
    until = time.monotonic() + 60
    while int.from_bytes(fcntl.ioctl(taken, termios.FIONREAD, bytes(4)), "little"):
        if time.monotonic() > until:
            raise RuntimeError("./play reads no further")


def player_under(shell: int) -> pathlib.Path:
    """/proc of the player that this ./play has started."""
    until = time.monotonic() + 60
    while time.monotonic() < until:
        for child in pathlib.Path(f"/proc/{shell}/task/{shell}/children").read_text().split():
            if pathlib.Path(f"/proc/{child}/cmdline").read_bytes().endswith(b"target/bin/play\0"):
                return pathlib.Path(f"/proc/{child}")
        time.sleep(0.01)
    raise RuntimeError("./play has started no player")


def told(process: pathlib.Path, name: str) -> str:
    return re.search(rf"^{name}:\s+(\S+)", (process / "status").read_text(), re.M)[1]


def peak(recording: bytes) -> int:
    """The most memory in KiB that the player has held when it has played all of this and waits for more."""
    with fed(subprocess.DEVNULL) as (shell, feed, taken):
        give(feed, recording, taken)
        player = player_under(shell.pid)
        while told(player, "State") != "S":
            time.sleep(0.01)
        return int(told(player, "VmHWM"))


def folder() -> pathlib.Path:
    """A folder for this run, removed at its end."""
    made = tempfile.TemporaryDirectory(prefix="practice-")
    folder.kept.append(made)
    return pathlib.Path(made.name)


folder.kept = []


def copied(place: pathlib.Path) -> pathlib.Path:
    """The project in a place of its own, with what is built: times are kept, so that only what is changed there is built anew."""
    copy = place / "project"
    shutil.copytree(ROOT, copy, symlinks=True, ignore=lambda at, _: {".git", "target"} if at == str(ROOT) else set())
    for name in ("host", "staticlib", "bin", "python-x86-64"):
        if (ROOT / "target" / name).is_dir():
            shutil.copytree(ROOT / "target" / name, copy / "target" / name, symlinks=True)
    return copy


def new_card(sheet: pathlib.Path, card: pathlib.Path) -> pathlib.Path:
    done = tap("new", sheet, card)
    if done.returncode:
        raise RuntimeError(done.stderr.decode())
    return card


def send(card, *words, options=()) -> list:
    """The responses, as bytes."""
    done = tap("send", "--hex", *options, card, *words)
    if done.returncode:
        raise RuntimeError(done.stderr.decode())
    return [bytes.fromhex(line) for line in done.stdout.decode().split()]


def fields(response: bytes) -> dict:
    """The fields of a response, by tag; the status word under 'word'."""
    found, at, end_at = {"word": int.from_bytes(response[-2:], "big")}, 0, len(response) - 2
    while at < end_at:
        tag, length, start = response[at], response[at + 1], at + 2
        if length == 0xFF:
            length, start = int.from_bytes(response[at + 2 : at + 4], "big"), at + 4
        found[tag] = response[start : start + length]
        at = start + length
    return found

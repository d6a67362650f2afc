"""./classroom itself: its options, the port, the browser that it opens, how it ends, and that it writes nothing."""

import contextlib
import os
import pathlib
import signal
import socket
import subprocess
import time

from rig import ROOT, check, copied, folder, same

from browser import browser, classroom, until
from classroom_guarded import POSTS, Server
from classroom_alone import page_of

PROGRAM = ROOT / "classroom"
SECONDS = 3  # in which Ctrl-C has to end it


def ran(*words, **more) -> subprocess.CompletedProcess:
    return subprocess.run([PROGRAM, *words], capture_output=True, timeout=60, **more)


# ---- options ----


def helps() -> None:
    for word in ("--help", "-h"):
        done = ran(word)
        same(f"{word}: status 0, and all on standard output", (done.returncode, done.stderr), (0, b""))
        missing = [option for option in ("--port", "--no-open", "--page", "--help", "--version") if option not in done.stdout.decode()]
        same(f"{word}: every option is there", missing, [])
    done = ran("--version")
    same("--version: status 0, and one line with the version", (done.returncode, done.stdout.count(b"\n"), done.stderr), (0, 1, b""))
    check("--version: that of VERSION", (ROOT / "VERSION").read_text().strip() in done.stdout.decode(), str(done))


def complained(name: str, done: subprocess.CompletedProcess, status: int, *words: str) -> None:
    """Nothing is printed, and one line says why."""
    said = done.stderr.decode()
    holds = (done.returncode, done.stdout, said.count("\n")) == (status, b"", 1) and said.startswith("classroom: ")
    check(f"{name}: status {status}, one line on standard error, nothing else", holds and all(word in said for word in words), str(done))


def bad_options() -> None:
    for port in ("abc", "65536", "-1", "080", "", "80 80", "1e3", "99999999999"):
        complained(f"--port '{port}'", ran("--no-open", "--port", port), 2, "is no port")
        complained(f"--port='{port}'", ran("--no-open", f"--port={port}"), 2, "is no port")
    for word in ("--nothing", "-p", "lessons/refused.rec", "--ports=5", ""):
        complained(f"'{word}'", ran("--no-open", word), 2, "is no option")
    for word in ("--page", "--port"):
        complained(f"{word} alone", ran(word), 2, f"{word} wants a word")


def taken_port() -> None:
    with socket.socket() as taken:
        taken.bind(("127.0.0.1", 0))
        taken.listen()
        port = taken.getsockname()[1]
        complained("a port that is taken", ran("--no-open", "--port", str(port)), 2, str(port), "in use")
    with classroom("--port", str(port)) as address:
        check("a port that is free: it is taken", f"127.0.0.1:{port}/" in address and Server(address).answers(), address)


# ---- pages ----


def bad_pages() -> None:
    place = folder()
    bad = place / "bad.rec"
    lines = (ROOT / "lessons" / "refused.rec").read_bytes().splitlines(keepends=True)
    bad.write_bytes(b"".join([*lines[:16], lines[16].lower(), *lines[17:]]))
    complained("a page of a recording with a bad line", page_of(bad), 1, "line 17 is bad", "small letter")
    bad.write_bytes(b"")
    complained("a page of an empty file", page_of(bad), 1, "line 1 is bad")
    complained("a page of a file that is not there", page_of(place / "none.rec"), 2, "none.rec")
    complained("a page of a folder", page_of(place), 2, "folder")


# ---- the browser that it opens ----


def stand_in(place: pathlib.Path) -> dict:
    """An environment whose xdg-open writes down what it is to open."""
    program = place / "xdg-open"
    program.write_text(f'#!/bin/sh\nprintf "%s\\n" "$@" > {place}/part && mv {place}/part {place}/opened\n')
    program.chmod(0o755)
    plain = {name: value for name, value in os.environ.items() if name not in ("DISPLAY", "WAYLAND_DISPLAY")}
    return {**plain, "PATH": f"{place}:{os.environ['PATH']}"}


@contextlib.contextmanager
def started(*words, program=PROGRAM, **more):
    """The process, when it has printed its address, and that address. Whatever happens, it ends."""
    process = subprocess.Popen([program, *words], stdout=subprocess.PIPE, stderr=subprocess.DEVNULL, text=True, **more)
    try:
        yield process, process.stdout.readline().strip()
    finally:
        process.kill()
        process.wait(10)
        process.stdout.close()


def opens() -> None:
    screen = {"DISPLAY": ":9"}
    for words, options, more, is_opened in (
        ("with a screen", [], screen, True),
        ("with Wayland", [], {"WAYLAND_DISPLAY": "wayland-9"}, True),
        ("with a screen and --no-open", ["--no-open"], screen, False),
        ("without a screen", [], {}, False),
    ):
        place = folder()
        with started(*options, env={**stand_in(place), **more}) as (process, address):
            found = place / "opened"
            if is_opened:
                until(found.exists)
                same(f"{words}: the browser gets the address", found.read_text(), f"{address}\n")
            else:
                Server(address).answers()
                process.send_signal(signal.SIGINT)
                process.wait(10)
                check(f"{words}: no browser is opened", not found.exists())


# ---- its end ----


def ended(process) -> tuple:
    """The status after Ctrl-C, and whether it came in time."""
    process.send_signal(signal.SIGINT)
    begun = time.monotonic()
    status = process.wait(30)
    return status, time.monotonic() - begun < SECONDS


def ends() -> None:
    with started("--no-open") as (process, _):
        same("Ctrl-C ends it: status 0, at once", ended(process), (0, True))
    with started("--no-open") as (process, address), browser() as page:
        page.get(f"{address}#lesson/delay/3")
        until(lambda: page.find_elements("id", "lesson"))
        same("Ctrl-C with a page open: status 0, at once", ended(process), (0, True))
        page.find_element("link text", "Try it").click()
        page.find_element("id", "make").click()
        said = until(lambda: page.execute_script("const line = document.getElementById('trouble'); return line.hidden ? '' : line.textContent"))
        check("a page whose server has ended says so", "is ./classroom still running?" in said, said)
    with started("--no-open") as (process, address):
        line = socket.create_connection(("127.0.0.1", Server(address).port))
        line.sendall(b"POST / HTTP/1.1\r\nContent-Length: 100\r\n")
        same("Ctrl-C with half a request: status 0, at once", ended(process), (0, True))
        line.close()
    with started("--no-open") as (process, _):
        process.terminate()
        same("SIGTERM ends it as well", process.wait(10), 0)


# ---- nothing is written ----


def listing(*places: pathlib.Path) -> dict:
    """Every file with its size and its time."""
    paths = [pathlib.Path(at, name) for place in places for at, _, names in os.walk(place) for name in names]
    return {path: (os.lstat(path).st_size, os.lstat(path).st_mtime_ns) for path in paths}


def all_served(address: str) -> list:
    """The status of all that the page asks for."""
    server = Server(address)
    got = [server.get(name) for name in ("", "main.js", "words", "lesson/refused")]
    return [answer.status for answer in (*got, *(server.post(name, given) for name, given in POSTS.items()))]


def writes_nothing() -> None:
    """In a copy of the project, so that nobody else writes there, and with a home of its own."""
    project, home = copied(folder()), folder()
    env = {**os.environ, "HOME": str(home), "TMPDIR": str(home), "PYTHONDONTWRITEBYTECODE": ""}
    before = listing(project, home)
    with started("--no-open", program=project / "classroom", env=env, cwd=home) as (process, address):
        same("all that the page asks for is served from a copy", all_served(address), [200] * 10)
        process.send_signal(signal.SIGINT)
        process.wait(10)
    words = [project / "classroom", "--page", project / "lessons" / "refused.rec"]
    page = subprocess.run(words, capture_output=True, env=env, cwd=home, timeout=60)
    check("and a page of one file is made there", page.returncode == 0 and page.stdout.startswith(b"<!doctype html>"), str(page)[:300])
    now = listing(project, home)
    same("nothing is written, neither in the project nor at home", {path for path in {*before, *now} if before.get(path) != now.get(path)}, set())


def starts() -> None:
    for part in (helps, bad_options, taken_port, bad_pages, opens, ends, writes_nothing):
        part()

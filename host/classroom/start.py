#!/usr/bin/python3
"""Serves the page until Ctrl-C: start.py PORT OPEN, a port of 0 being any that is free. ./classroom has looked at the options."""

import asyncio
import os
import pathlib
import secrets
import shutil
import signal
import subprocess
import sys

sys.path.insert(0, str(pathlib.Path(__file__).resolve().parent.parent / "python"))

from aiohttp import web

from server import ADDRESS, served


def stop(why: str):
    print(f"classroom: {why}", file=sys.stderr)
    sys.exit(2)


def open_page(address: str):
    """In the browser of the user's desktop, where there is one. Without a screen a browser of the terminal would take it over."""
    has_screen = os.environ.get("DISPLAY") or os.environ.get("WAYLAND_DISPLAY")
    opener = shutil.which("xdg-open") or shutil.which("x-www-browser")
    if has_screen and opener:
        subprocess.Popen([opener, address], stdin=subprocess.DEVNULL, stdout=subprocess.DEVNULL, stderr=subprocess.DEVNULL,
                         start_new_session=True)


async def serve(port: int, opens: bool):
    ended = asyncio.Event()
    for number in (signal.SIGINT, signal.SIGTERM, signal.SIGHUP):
        asyncio.get_running_loop().add_signal_handler(number, ended.set)
    key = secrets.token_urlsafe(16)
    runner = web.AppRunner(served(key), access_log=None)
    await runner.setup()
    site = web.TCPSite(runner, ADDRESS, port)
    try:
        await site.start()
    except OSError as why:
        stop(f"port {port} cannot be used: {os.strerror(why.errno)}; --port names another, and without it a free one is found")
    address = f"http://{ADDRESS}:{runner.addresses[0][1]}/{key}/"
    print(address, flush=True)
    print("classroom: open this address in a browser; Ctrl-C ends it", file=sys.stderr)
    if opens:
        open_page(address)
    await ended.wait()
    await runner.cleanup()


asyncio.run(serve(int(sys.argv[1]), sys.argv[2] == "yes"))

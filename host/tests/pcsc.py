"""pcscd with the virtual reader, for the tests that put a card into it.

pcscd runs in a network and a /run of its own where the system lets us have them, so that nothing of it is seen outside and no other
pcscd is in its way.
"""

import contextlib
import fcntl
import importlib.util
import os
import pathlib
import re
import shutil
import socket
import struct
import subprocess
import sys

from clients import running, wait_for

READER = "Virtual PCD 00 00"
DRIVER = "/usr/lib/pcsc/drivers/serial/libifdvpcd.so"
PORT = 35963
APART = (["unshare", "--user", "--map-root-user", "--net", "--mount"], ["unshare", "--net", "--mount"])
INSIDE = "--inside"

os.environ["PATH"] += ":/usr/sbin:/sbin"


# ---------------------------------------------------------------- a place of our own


def missing() -> list:
    """Debian's packages that are not there."""
    wanted = {
        "pcscd": shutil.which("pcscd"),
        "vsmartcard-vpcd": os.path.exists(DRIVER),
        "opensc": shutil.which("opensc-tool"),
        "pcsc-tools": shutil.which("scriptor"),
        "python3-pyscard": importlib.util.find_spec("smartcard"),
    }
    return [package for package, there in wanted.items() if not there]


def loopback_up():
    """As `ip link set lo up`, without the program."""
    with socket.socket(socket.AF_INET, socket.SOCK_DGRAM) as any_socket:
        fcntl.ioctl(any_socket, 0x8914, struct.pack("16sh14x", b"lo", 0x1 | 0x8 | 0x40))  # SIOCSIFFLAGS: up, loopback, running


def furnish():
    loopback_up()
    subprocess.run(["mount", "-t", "tmpfs", "none", "/run"], check=True)
    os.mkdir("/run/pcscd")


def own_place() -> bool:
    """Starts this test again in a place of its own, where one can be had. False, with a line, where there can be no pcscd for us."""
    if INSIDE in sys.argv:
        furnish()
        return True
    gone = missing()
    if gone:
        print(f"skip the card in a reader: missing {', '.join(gone)}; host/build installs them as root")
        return False
    for words in APART:
        if shutil.which("unshare") and subprocess.run([*words, "true"], capture_output=True).returncode == 0:
            sys.stdout.flush()
            os.execvp(words[0], [*words, sys.executable, *sys.argv, INSIDE])
    if os.path.exists("/run/pcscd/pcscd.comm"):
        print("skip the card in a reader: a pcscd is running here, and the system gives no place of our own beside it")
        return False
    return True


# ---------------------------------------------------------------- pcscd


@contextlib.contextmanager
def pcscd(place: pathlib.Path):
    """With the one driver that is tested, and no other reader of this machine."""
    log = place / "pcscd.log"
    (place / "reader.conf").write_text(
        f'FRIENDLYNAME "Virtual PCD"\nDEVICENAME /dev/null:{PORT:#06x}\nLIBPATH {DRIVER}\nCHANNELID {PORT:#06x}\n')
    with running(log, "pcscd", "--foreground", "--config", place / "reader.conf") as process:
        if not wait_for(lambda: os.path.exists("/run/pcscd/pcscd.comm")):
            raise RuntimeError("pcscd does not start: " + log.read_text())
        yield process


def sees_card() -> bool:
    found = subprocess.run(["opensc-tool", "--list-readers"], capture_output=True, text=True, timeout=60).stdout
    return re.search(rf"Yes\s.*{READER}", found) is not None

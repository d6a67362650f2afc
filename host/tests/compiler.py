"""The compilers that make programs for the proved library on this machine, as host/build has them, and how such a program is run."""

import platform
import subprocess

ARM = platform.machine() == "aarch64"
CC = "x86_64-linux-gnu-gcc" if ARM else "gcc"
CXX = "x86_64-linux-gnu-g++" if ARM else "g++"
STATIC = ["-static"] if ARM else []


def compiled(*words, **more) -> subprocess.CompletedProcess:
    return subprocess.run([*map(str, words)], capture_output=True, timeout=120, **more)


def started(program, **more) -> subprocess.CompletedProcess:
    return subprocess.run([*(["qemu-x86_64"] if ARM else []), str(program)], capture_output=True, timeout=60, **more)

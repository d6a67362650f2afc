"""What a page shows: every ```console block run again, every block of code held to the source it is from.

In a block a line that starts with `$ ` is a command, and what follows up to the next is all that it prints, on standard output and
standard error. The blocks of a page are run one after the other in one shell, at the project's root, with /tmp/ standing for a folder of
the test's own. A command ends with status 0; where the last line that it prints is a complaint, as `tap: why`, it ends with another. Where
`$ echo $?` follows, the page shows the status, whatever it is. With `--write` the pages get what the commands print now.
"""

import contextlib
import os
import re
import signal
import subprocess
import sys

from rig import BUILT, ROOT, check, folder

MARK = "-- status"
BLOCK = re.compile(r"^```console\n(.*?)^```$", re.S | re.M)
# Code in a language stands word for word in a source of the host that a test builds and runs.
CODE = re.compile(r"^```(?!console)(\w+)\n(.*?)^```$", re.S | re.M)
SUFFIX = {"c": "*.c", "cpp": "*.cc", "java": "*.java", "python": "*.py", "rust": "*.rs"}
COMMAND = re.compile(r"^\$ (.*)\n((?:(?!\$ ).*\n)*)", re.M)
ENDED = re.compile(rf"(.*?){MARK} (\d+)\n", re.S)
COMPLAINT = re.compile(r"^(tap|reader|play|handover|host/\w+): .*\n\Z", re.M)
STATUS = "echo $?"


def here(command: str, place: str) -> str:
    return re.sub(r"\btarget/host\b(?!-)", str(BUILT.relative_to(ROOT)), command.replace("/tmp/", place))


def ran(commands: list, seconds: int) -> list:
    """What each has printed and its status, of as many as the shell came to. The status is there for the next command too. What they
    leave running ends with the shell."""
    place, own = str(folder()) + "/", folder()
    (own / "script").write_text("".join(f"{here(command, place)}\nended=$?; echo '{MARK}' $ended; (exit $ended)\n" for command in commands))
    with open(own / "output", "wb") as output:
        shell = subprocess.Popen(["bash", own / "script"], stdin=subprocess.DEVNULL, stdout=output, stderr=subprocess.STDOUT, cwd=ROOT,
                                 start_new_session=True)
        with contextlib.suppress(subprocess.TimeoutExpired):
            shell.wait(seconds)
        with contextlib.suppress(ProcessLookupError):
            os.killpg(shell.pid, signal.SIGKILL)
        shell.wait()
    return [(printed.replace(place, "/tmp/"), int(status)) for printed, status in ENDED.findall((own / "output").read_text())]


def wrong(expected: str, got: tuple, status_is_shown: bool) -> str:
    printed, status = got
    if printed != expected:
        return f"it prints {printed!r}, the page shows {expected!r}"
    if not status_is_shown and (status != 0) != bool(COMPLAINT.search(printed)):
        return f"it ends with status {status}"
    return ""


def written(text: str, outputs: list) -> str:
    rest = iter(outputs)
    return BLOCK.sub(lambda block: COMMAND.sub(lambda one: f"$ {one[1]}\n{next(rest)[0]}", block[0]), text)


def commands_of(page: str, text: str) -> list:
    """Each with what the page says that it prints."""
    blocks = BLOCK.findall(text)
    check(f"{page}: every block begins with a command, and is closed",
          text.count("```console") == len(blocks) and all(block.startswith("$ ") for block in blocks))
    return [one for block in blocks for one in COMMAND.findall(block)]


def run_page(path, seconds: int = 600) -> None:
    page, text = path.relative_to(ROOT), path.read_text()
    shown = commands_of(page, text)
    outputs = ran([command for command, _ in shown], seconds)
    if "--write" in sys.argv and len(outputs) == len(shown):
        path.write_text(written(text, outputs))
    next_ones = [command for command, _ in shown[1:]] + [""]
    for at, ((command, expected), then) in enumerate(zip(shown, next_ones)):
        why = wrong(expected, outputs[at], then == STATUS) if at < len(outputs) else "the shell never came to its end"
        check(f"{page}: {command}", not why, why)
    for language, block in CODE.findall(text):
        sources = [source for source in (ROOT / "host").rglob(SUFFIX.get(language, "none")) if block in source.read_text()]
        check(f"{page}: the {language} that begins {block.split(chr(10))[0]!r} stands in a source", sources, "in none of the host's")

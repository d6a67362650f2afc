"""What the scripts share that python.test runs once for each way to the library, which is that of MERELSTOF_WAY."""

import os
import sys
import threading

from rig import ROOT, SHEETS

sys.path.insert(0, str(ROOT / "host" / "python"))
from merelstof import Provider

WAY = os.environ["MERELSTOF_WAY"]
SHEET = SHEETS["secp256k1"].read_text()


def named(words: str) -> str:
    return f"{WAY}: {words}"


class Given(Provider):
    """Answers with bytes that were there before, and keeps what was asked."""

    answers, asked = b"", None

    def answer(self, questions):
        self.asked = questions
        return self.answers


def raised(kind, call, *given) -> str:
    """What is said, where this kind and no other is raised."""
    try:
        call(*given)
    except Exception as why:
        return str(why) if type(why) is kind else f"{type(why).__name__}: {why}"
    return "nothing was raised"


def at_once(work):
    """Eight threads, each with its number."""
    workers = [threading.Thread(target=work, args=(number,)) for number in range(8)]
    for worker in workers:
        worker.start()
    for worker in workers:
        worker.join()

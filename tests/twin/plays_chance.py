"""Recordings of taps by chance, from a fixed seed: all commands, some refused, some after a wait; and the same with wrong expectations."""

from twin.card import SW_NEED_PAUSE, ask
from twin.chance import Chance
from twin.chance_requests import next_request
from twin.histories import answers_by_chance
from twin.image import decode
from twin.recorder import Recording

CHANGED = 7
# Data is short, and a long request is mostly drawn again, to keep the file small.
LONG = 160


class Brief(Chance):
    def data_length(self) -> int:
        return self.choice((0, 1, 2, 5, 16))


def some_request(chance: Chance, card) -> bytes:
    """No empty one, which would be a bad line."""
    while True:
        request = next_request(chance, card)
        if request and (len(request) <= LONG or chance.often(0.05)):
            return request


def wrong(chance: Chance, response: str) -> str:
    """A digit changed, a byte less, a byte more, or something else."""
    at = chance.randrange(len(response))
    changed = response[:at] + chance.choice("0123456789ABCDEF".replace(response[at], "")) + response[at + 1 :]
    if response == "4":
        return chance.choice(("9000", "44"))
    return chance.choice((changed, changed, response[:-2], response + "00", "4"))


def session(name: str, seed: str, taps: int, expected, **sheet) -> Recording:
    recording, chance = Recording(name).sheet(**sheet), Brief(seed)
    for tap in range(1, taps + 1):
        image = recording.play.image
        request, draw = some_request(chance, decode(image)), chance.randbytes(32)
        asked = ask(image, request, draw)
        if asked.reason or asked.word == SW_NEED_PAUSE:
            answers = chance.randbytes(chance.choice((0, 0, 0, 1, 64)))
        else:
            answers = answers_by_chance(chance, asked.questions)
        recording.tap(request, answers, draw, expected if tap % CHANGED == 0 else None)
    return recording


def sessions(book: list):
    """The seeds are such that wallets come and go, waits come to their end, and the sums at the end are no zeros; in the last a reset is
    refused, waits, and is accepted."""
    spoil, usual = Chance("expectations"), dict(max="20")
    book.append(session("taps by chance", "day 14", 220, None, **usual))
    book.append(session("taps by chance, every seventh expectation wrong", "day 14", 91, lambda right: wrong(spoil, right), **usual))
    book.append(session("taps by chance, ed25519", "day 30", 50, None, curve="ed25519", usecvc="1", max="5"))
    book.append(session("taps by chance, not reusable", "day 18", 40, None, reusable="0", replay="0", setpin1="0", max="3"))
    book.append(session("taps by chance, a pause", "day 29", 80, None, pause="2", max="9"))
    book.append(session("taps by chance, not activated at first", "day 73", 80, None, active="0", max="9"))


GROUPS = (sessions,)

"""A card: its image, the provider lent to it, and a tap."""

import os
import threading
from typing import Optional, Union

from .library import library
from .providers import Provider, draw_of, questions_of
from .response import Response
from .view import View

SHEET = (
    "cid, a tab and 16 hex digits in capitals",
    "pin1, a tab and 64 hex digits in capitals",
    "pin2, a tab and 64 hex digits in capitals",
    "cvc, a tab and three digits",
    "curve, a tab and secp256k1 or ed25519",
    "max, a tab and a number from 1 to 4294967295 without leading zeros",
    "reusable, a tab and 0 or 1",
    "usecvc, a tab and 0 or 1",
    "setpin1, a tab and 0 or 1",
    "setpin2, a tab and 0 or 1",
    "nopurge, a tab and 0 or 1",
    "replay, a tab and 0 or 1",
    "active, a tab and 0 or 1",
    "seed, a tab and 32 hex digits in capitals",
    "nothing, or pause, a tab and a number from 0 to 60 without leading zeros",
)

SENDINGS = 121  # the longest wait has 120 seconds, and is over with the sending after them


class BadSheet(ValueError):
    """A personalisation sheet with a bad line: `line` is its number, `wanted` what it has to be."""

    def __init__(self, line: int):
        self.line = line
        self.wanted = f"{SHEET[line - 1]}, ended by a line feed" if line <= len(SHEET) else f"nothing after line {len(SHEET)}"
        super().__init__(f"line {line} is bad; it has to be {self.wanted}")


class NoTap(Exception):
    """There was no tap: no response, and the card is as it was. `number` is the library's (host/link/practice.h)."""

    number = 0


class NotACard(NoTap, ValueError):
    number = 1


class NoRoom(NoTap):
    number = 2


class WrongDraw(NoTap, ValueError):
    number = 3


class WrongAnswers(NoTap, ValueError):
    number = 4


NUMBERS = {
    1: (NotACard, "the image is no card (docs/IMAGE.md)"),
    2: (NoRoom, "a buffer is too short"),
    3: (WrongDraw, "the draw has not 32 bytes"),
    4: (WrongAnswers, "the provider's answers have not the shape that the questions ask for"),
}


def tell(number: int):
    if number:
        kind, words = NUMBERS[number]
        raise kind(words)


def plain(given, name: str) -> bytes:
    """bytes() would take a number too, and make zeros of it."""
    if not isinstance(given, (bytes, bytearray, memoryview)):
        raise TypeError(f"{name} is to be bytes, not {type(given).__name__}")
    return bytes(given)


class Card(View):
    """A practice card. Its values (status, remaining, signed_hashes ..) are those of docs/IMAGE.md; only a tap or a power-off changes them.

    The draw of a tap is 32 bytes by chance; where a seed is given, it comes from that and the tap's number, as docs/KEYS.md says.
    """

    def __init__(self, image: bytes, provider: Provider, seed: Union[str, bytes, None] = None):
        self._library = library()
        self._image, self.provider, self.seed = plain(image, "an image"), provider, seed
        self._taps, self._lock = 0, threading.Lock()
        if len(self._image) != self._library.image_length:
            tell(NotACard.number)
        tell(self._library.ask(self._image, b"", bytes(32)).number)  # whether it is a card is looked at before the request

    @classmethod
    def from_sheet(cls, text: Union[str, bytes], provider: Provider, seed: Union[str, bytes, None] = None) -> "Card":
        """The fresh card of a personalisation sheet: README has one, host/examples two."""
        line, image = library().personalise(text.encode() if isinstance(text, str) else plain(text, "a sheet"))
        if line:
            raise BadSheet(line)
        return cls(image, provider, seed)

    @classmethod
    def from_image(cls, image: bytes, provider: Provider, seed: Union[str, bytes, None] = None) -> "Card":
        """The card that `card.image` was, or that a card file of `tap` holds."""
        return cls(image, provider, seed)

    @property
    def image(self) -> bytes:
        """The whole card. Keep it, and Card.from_image goes on where this one stands."""
        return self._image

    def tap(self, request: bytes, draw: Optional[bytes] = None, wait: bool = False) -> Response:
        """One request. A refusal is a response like any other; where there is none, a NoTap is raised and nothing has changed.

        After a wrong code, or with a pause on the sheet, the card makes its holder wait: the response is paused, and says how long. With
        `wait` the same bytes are sent again until it goes on, each time as a tap of its own. On this card a second is a sending, whatever
        the clock says.
        """
        request = plain(request, "a request")
        with self._lock:
            for _ in range(SENDINGS if wait else 1):
                response = self._sent(request, draw)
                if not response.paused:
                    break
        return response

    def power_off(self):
        """The card leaves the field. A request that it holds is forgotten, so that its wait begins anew; wrong codes stay counted."""
        with self._lock:
            number, image = self._library.power_off(self._image)
            tell(number)
            self._image = image

    def _sent(self, request: bytes, draw: Optional[bytes]) -> Response:
        self._taps += 1
        draw = self._draw() if draw is None else plain(draw, "a draw")
        asked = self._library.ask(self._image, request, draw)
        tell(asked.number)
        answers = plain(self.provider.answer(questions_of(asked.questions, self.cid)), "a provider's answer")
        settled = self._library.settle(self._image, request, draw, answers)
        tell(settled.number)
        self._image = settled.image
        return Response(settled.response, request[1] if len(request) > 1 else 0, settled.reason)

    def _draw(self) -> bytes:
        return os.urandom(32) if self.seed is None else draw_of(self.seed, self._taps)

    def __repr__(self) -> str:
        return f"<Card {self.cid.hex().upper()} {self.status.name}, Remaining {self.remaining}, Signed_Hashes {self.signed_hashes}>"

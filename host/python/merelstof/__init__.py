"""A practice card for the tests of an app: it answers as a card in a reader does, with nothing running.

    from merelstof import Card, MadeUp, create_wallet, sha256, sign

    card = Card.from_sheet(open("my.sheet").read(), MadeUp())
    card.tap(create_wallet(card))
    assert card.tap(sign(card, [sha256("hours 1204")])).word == 0x9000
    assert card.signed_hashes == 1

MadeUp needs nothing and signs nothing that verifies. The practice keys of docs/KEYS.md do: from merelstof.practice import Practice.
"""

from .card import BadSheet, Card, NoRoom, NotACard, NoTap, WrongAnswers, WrongDraw
from .library import NoLibrary
from .names import COMMANDS, REASONS, TAGS, WORDS
from .providers import MadeUp, Provider, Question
from .requests import (
    Codes, activate_card, check_wallet, command, create_wallet, purge_wallet, read_card, read_issuer_data, read_user_data, set_pin,
    sha256, sign, validate_card, verify_card, write_issuer_data, write_user_data,
)
from .response import Field, Response
from .view import Curve, Status

__version__ = "0.1.0"

"""Cases for two tablets that write: two WRITE_USER_DATA, each accepted when it is sent alone, in either order, and the first twice.

What must come stands here by itself, so that the twin is held to it too. What is there is stored and all else stays, so the order shows
only in a tag that is in both. The rows at the end show what the conditions are for; host/tests/tablets.test sends them as well.
"""

from itertools import combinations, permutations, product

from twin.bench import WRITE_USER_DATA, Provider, confirmed, counter, full, sign, some, tags
from twin.cases_handover import DONE, PAUSED
from twin.image import LOADED, Card, decode
from twin.request import number

# What WRITE_USER_DATA may store, by tag.
STORED_AS = dict(zip(tags("2A 2B 2C 2D"), ("user_data", "user_protected_data", "user_counter", "user_protected_counter")))
CHOICES = [chosen for count in range(1, 5) for chosen in combinations(STORED_AS, count)]
ONE = {0x2A: b"a", 0x2B: b"b", 0x2C: counter(1), 0x2D: counter(2)}
OTHER = {0x2A: b"c", 0x2B: b"d", 0x2C: counter(3), 0x2D: counter(4)}


def chosen_of(contents: dict, choice: tuple) -> dict:
    return {tag: contents[tag] for tag in choice}


def write(fields: dict) -> bytes:
    return confirmed(WRITE_USER_DATA, *fields.items())


def named(fields: dict) -> str:
    return " ".join(f"{tag:02X}" for tag in fields)


def agree(first: dict, second: dict) -> bool:
    """Whether no tag is in both, or only with the same contents."""
    return all(first[tag] == second[tag] for tag in first.keys() & second.keys())


def later(*writes: dict) -> dict:
    """What stands under each tag after these, one after another."""
    return {tag: value for fields in writes for tag, value in fields.items()}


def stored(*writes: dict) -> dict:
    """The same as values of a card, by name."""
    return {STORED_AS[tag]: number(value) if "counter" in STORED_AS[tag] else value for tag, value in later(*writes).items()}


def changed(card: Card, image: bytes) -> dict:
    """The values that are others in this image than on this card, by name."""
    return {name: new for name, old, new in zip(Card._fields, card, decode(image)) if new != old}


# ---------------------------------------------------------------- either order


def left_by(script, card: Card, *writes: dict) -> list:
    """The images after each, sent to this card one after another: all are accepted. Of those before the last settle alone is called."""
    def draw():
        return some(32, script.calls["S"])

    script.use(card)
    *before, last = map(write, writes)
    settled = [*(script.settle(sent, b"", draw()) for sent in before), script.tap(last, draw())]
    for one in settled:
        assert (one.number, one.word, one.reason) == (0, *DONE), (writes, one)
    return [one.image for one in settled]


def either_order(script):
    """Any two choices of tags meet with contents that differ, and the other way round with contents that agree."""
    card = full(LOADED)
    for (place, of_first), (beside, of_second) in product(enumerate(CHOICES), repeat=2):
        first, second = chosen_of(ONE, of_first), chosen_of(OTHER if place <= beside else ONE, of_second)
        script.say(f"{named(first)} and {named(second)}, {'differing' if place <= beside else 'agreeing'}")
        once, after = left_by(script, card, first, second)
        _, other_way = left_by(script, card, second, first)
        _, twice = left_by(script, card, first, first)
        assert changed(card, after) == stored(first, second), (first, second)
        assert changed(card, other_way) == stored(second, first), (first, second)
        assert (after == other_way) == agree(first, second), (first, second)
        assert twice == once and changed(card, once) == stored(first), first


def every_order(script):
    """Four requests with a tag each."""
    card, four = full(LOADED), [chosen_of(ONE, choice) for choice in CHOICES[:4]]
    for order in permutations(four):
        script.say(", then ".join(map(named, order)))
        *_, after = left_by(script, card, *order)
        assert changed(card, after) == stored(*four), order


# ---------------------------------------------------------------- what the conditions are for


def rows(card: Card) -> tuple:
    """Words, a card, what is sent to it one after another, what each comes to, and what has changed then. The card given is Loaded."""
    first, second, protected, counted = (write(fields) for fields in ({0x2A: b"a"}, {0x2A: b"c"}, {0x2B: b"b"}, {0x2C: counter(7)}))
    waits, over = card._replace(pause=1, seconds_left=1, held_request=protected), dict(seconds_left=0, held_request=b"")
    signed = dict(remaining=card.remaining - 1, signed_hashes=card.signed_hashes + 1, last_signatures=Provider().answer(2, card.curve),
                  user_protected_counter=card.user_protected_counter + 1)
    return (
        ("2A in both: nothing is refused, and the later stays", card, (first, second), [DONE, DONE], dict(user_data=b"c")),
        ("2A in both, the other way round: the later stays again", card, (second, first), [DONE, DONE], dict(user_data=b"a")),
        ("2B held, its last second: done alone", waits, (protected,), [DONE], dict(over, user_protected_data=b"b")),
        ("2B held: 2A is done alone", waits, (first,), [DONE], dict(over, user_data=b"a")),
        ("2B held, then 2A: done", waits, (protected, first), [DONE, DONE], dict(over, user_data=b"a", user_protected_data=b"b")),
        ("2B held, 2A before it: 2B waits again", waits, (first, protected), [DONE, PAUSED], dict(user_data=b"a")),
        ("2B held, twice: it waits again", waits, (protected, protected), [DONE, PAUSED], dict(user_protected_data=b"b")),
        ("SIGN, then 2C: as sent", card, (sign(1), counted), [DONE, DONE], dict(signed, user_counter=7)),
        ("2C, then SIGN: one more", card, (counted, sign(1)), [DONE, DONE], dict(signed, user_counter=8)),
    )


def came_of(script, card: Card, requests: tuple) -> tuple:
    """What each comes to, sent to this card one after another, and what has changed then. A question gets the same answer every time."""
    script.use(card)
    came = []
    for place, sent in enumerate(requests):
        draw = some(32, place)
        settled = script.settle(sent, Provider().answers(script.ask(sent, draw).questions), draw)
        came.append((settled.word, settled.reason))
    return came, changed(card, script.image)


def conditions(script):
    for words, card, requests, *expected in rows(full(LOADED)):
        script.say(words)
        assert came_of(script, card, requests) == tuple(expected), words


GROUPS = (
    ("two tablets: either order, and twice", either_order),
    ("two tablets: every order of four", every_order),
    ("two tablets: what the conditions are for", conditions),
)

"""Cases for a request that the card holds: what drops it, a power-off among that, and what leaves it as it was.

What each call must come to, and what the card then holds, stands here by itself, so that the twin is held to it too.
"""

from twin.bench import (
    ACTIVATE_CARD, CREATE_WALLET, DRAW, NAMES, SIGN, VALIDATE_CARD, WRITE_ISSUER_DATA, WRITE_USER_DATA, confirmed, fresh,
    issuer_data, loaded, pause, ready, request, sign, some, usual,
)
from twin.cases_checks import can_fail, card_failing, request_failing
from twin.cases_delay import READ, UNFIT, VALIDATE, holding, nothing_waits, waiting
from twin.cases_handover import DONE, NO_CONDITION, PAUSED, came_to, waited
from twin.image import decode, encode

# ---------------------------------------------------------------- what drops it


def other_bytes(script):
    """Other bytes that have to wait are held in its stead, and the count stays; those that need not are carried out."""
    script.say("held, then another command that waits, then the first from the beginning")
    script.use(fresh(pause=3))
    create = confirmed(CREATE_WALLET)
    for sent, left in ((VALIDATE, 3), (VALIDATE, 2), (create, 3), (VALIDATE, 3), (VALIDATE, 2), (VALIDATE, 1)):
        assert came_to(script, sent, PAUSED).response == pause(left)
    came_to(script, VALIDATE, DONE)
    script.say("held, then a command that need not wait: it is done, and the held one waits from the beginning")
    script.use(holding(1))
    came_to(script, READ, DONE)
    nothing_waits(script)
    waited(script, VALIDATE, 3, DONE)
    script.say("the same with two wrong codes: the other command waits for these, and clears them")
    script.use(holding(1, wrong_codes=2))
    waited(script, READ, 2, DONE)
    nothing_waits(script)
    waited(script, VALIDATE, 3, DONE)
    script.say("the same, the other command refused by check 11 or 12: it has not waited, and clears them too")
    for sent, expected in ((request(WRITE_USER_DATA), UNFIT), (request(WRITE_ISSUER_DATA, *issuer_data(sent=0)), NO_CONDITION)):
        script.use(holding(1))
        came_to(script, sent, expected)
        nothing_waits(script)


def refused_by_each(script):
    """By each of the checks 1 to 10: dropped, the count kept, and one more over a wrong PIN1 or PIN2."""
    for ins in (VALIDATE_CARD, SIGN):
        for check in can_fail(ins):
            if check > 10:
                continue
            script.say(f"{NAMES[ins]} refused by check {check} while a request is held")
            script.use(card_failing(ins, {check})._replace(pause=3, wrong_codes=4, seconds_left=2, held_request=VALIDATE))
            assert script.tap(request_failing(ins, {check})).reason == check
            assert waiting(script) == (4 + (check in (6, 10)), 0, b""), check
    script.say("the held request from the beginning, after another one was refused")
    script.use(holding(1, wrong_codes=1))
    came_to(script, b"", (0x6700, 1))
    waited(script, VALIDATE, 4, DONE)


def power_off(script):
    """What is held is dropped, what is counted stays; nothing else changes, also where nothing is held."""
    for words, card in (
        ("a request held", holding(2)), ("the same, 60 wrong codes", holding(120, pause=60, wrong_codes=60)),
        ("nothing held", fresh(pause=3)), ("five wrong codes, nothing held", loaded(wrong_codes=5)),
        ("1,024 bytes held", holding(1, some(1024, 4))),
    ):
        script.say(f"power-off, {words}")
        script.use(card)
        for _ in range(2):
            off = script.power_off()
            assert off[:4] == (0, 0, 0, b"") and decode(off.image) == card._replace(seconds_left=0, held_request=b""), words
    script.say("a wait, a power-off in it, and the wait from the beginning")
    script.use(fresh(pause=3, wrong_codes=1))
    for left in (4, 3, 2, 1):
        assert came_to(script, VALIDATE, PAUSED).response == pause(left)
    script.power_off()
    waited(script, VALIDATE, 4, DONE)


NO_CARD = encode(holding(2, pause=61))


def power_off_numbers(script):
    """1, then 2; there is no draw. The buffers for questions and response are not lent."""
    for lent, number in ((0x1000, 0), (0x1001, 0), (0x0FFF, 2), (0x0D92, 2), (0x0000, 2)):
        script.say(f"power-off with {lent} bytes for the next image")
        script.use(holding(2))
        script.lend(0, 0, lent)
        assert script.power_off().number == number
        script.use(NO_CARD)
        assert script.power_off() == (1, 0, 0, b"", None)
    script.lend()
    assert script.power_off() == (1, 0, 0, b"", None)
    script.use(encode(holding(2))[:-1])
    assert script.power_off() == (1, 0, 0, b"", None)


# ---------------------------------------------------------------- what does not


def numbers_1_to_3(script):
    """They write nothing, so the wait stands where it stood."""
    script.say("a damaged image, short buffers and draws in a wait take no second off and drop nothing")
    script.use(fresh(pause=3))
    came_to(script, VALIDATE, PAUSED)
    good = script.image
    for sent in (VALIDATE, READ, b""):
        script.use(NO_CARD)
        assert script.ask(sent).number == script.settle(sent).number == 1
        script.use(good)
        for rooms in ((0x07FF, 0x07FF, 0x1000), (0x07FF, 0x0800, 0x0FFF)):
            script.lend(*rooms)
            assert script.ask(sent).number == script.settle(sent).number == 2
        script.lend()
        for draw in (DRAW[:31], DRAW + b"\0"):
            assert script.ask(sent, draw).number == script.settle(sent, b"", draw).number == 3
    waited(script, VALIDATE, 2, DONE)


def asks(script):
    """However often and whatever is asked, no second goes by, and nothing is dropped."""
    script.say("asks between the sendings")
    script.use(fresh(pause=2))
    for left in (2, 1):
        for sent in (VALIDATE, VALIDATE, READ, b"", confirmed(CREATE_WALLET)):
            script.ask(sent)
        assert script.settle(VALIDATE).response == pause(left)
    asked = [script.ask(sent) for sent in (VALIDATE, READ, b"", confirmed(CREATE_WALLET), VALIDATE)]
    assert [(one.word, one.reason) for one in asked] == [DONE, DONE, (0x6700, 1), PAUSED, DONE]
    came_to(script, VALIDATE, DONE)


def number_4(script):
    """While it waits no answer is looked at. Then answers of the wrong shape leave all as it was, and the next sending goes on."""
    for words, card, sent in (
        ("VALIDATE_CARD", fresh(pause=2), VALIDATE), ("READ_CARD", fresh(wrong_codes=2), READ),
        ("SIGN", loaded(pause=1, wrong_codes=1), sign(1)),
        ("ACTIVATE_CARD", ready(ACTIVATE_CARD, wrong_codes=2), usual(ACTIVATE_CARD)),
    ):
        script.say(f"{words}: wrong answers at each sending")
        script.use(card)
        for left in (2, 1):
            assert script.settle(sent, b"\2").response == pause(left)
        for given in (b"\2", some(65), b"\2"):
            assert script.settle(sent, given) == (4, 0, 0, b"", None)
            assert waiting(script) == (card.wrong_codes, 1, sent)
        came_to(script, sent, DONE)
        nothing_waits(script)
    script.say("wrong answers where nothing waits")
    script.use(fresh())
    assert script.settle(READ, b"\2").number == 4
    nothing_waits(script)


def number_4_of_others(script):
    """Other bytes that need not wait, with answers of the wrong shape: number 4 leaves the held request, and its seconds."""
    for words, others in (("READ_CARD", READ), ("WRITE_USER_DATA", request(WRITE_USER_DATA, (0x2A, b"x")))):
        script.say(f"{words} with a stray answer while another request is held")
        script.use(holding(2))
        for _ in range(2):
            assert script.settle(others, b"\0") == (4, 0, 0, b"", None)
            assert waiting(script) == (0, 2, VALIDATE)
        waited(script, VALIDATE, 1, DONE)
    script.say("the same with a wrong code counted: it has to wait, and drops the held one")
    script.use(holding(2, wrong_codes=1))
    assert script.settle(READ, b"\0").response == pause(1)
    assert waiting(script) == (1, 1, READ)


GROUPS = (
    ("delay: other bytes", other_bytes),
    ("delay: refused while a request is held", refused_by_each),
    ("delay: power-off", power_off),
    ("delay: the numbers of power-off", power_off_numbers),
    ("delay: numbers 1 to 3", numbers_1_to_3),
    ("delay: ask", asks),
    ("delay: number 4", number_4),
    ("delay: number 4 with other bytes", number_4_of_others),
)

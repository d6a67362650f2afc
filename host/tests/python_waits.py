"""The package merelstof where the card makes its holder wait, in the way of MERELSTOF_WAY. host/tests/python.test runs it once for each
way, which stands before the name of each check. Needs the standard library alone, so that any Python can run it."""

from python_way import SHEET, Given, at_once, named, raised
from rig import end, same

from merelstof import Card, MadeUp, WrongAnswers, create_wallet, read_user_data, sha256, sign
from twin import bench
from twin.image import decode, encode


class Counting(MadeUp):
    """Counts the taps that it was asked in."""

    taps = 0

    def answer(self, questions):
        self.taps += 1
        return super().answer(questions)


def waiting(pause: int, wrong_codes: int = 0, status: int = bench.EMPTY) -> Card:
    return Card.from_image(encode(bench.in_status(status, pause=pause, wrong_codes=wrong_codes)), Counting())


def waited_out():
    """With `wait` the card goes on at sending T+1, and is then the card that never had to wait."""
    for pause, wrong_codes in ((0, 0), (1, 0), (0, 1), (3, 2), (60, 0), (0, 60), (60, 60)):
        card, other = waiting(pause, wrong_codes), waiting(0)
        done, expected = card.tap(create_wallet(card), wait=True), other.tap(create_wallet(other))
        same(named(f"a pause of {pause} after {wrong_codes} wrong codes is waited out"), (done, card.provider.taps),
             (expected, pause + wrong_codes + 1))
        same(named("and leaves the card that had not to"), decode(card.image)._replace(pause=0), decode(other.image))
    card = waiting(3, 2)
    said = [card.tap(create_wallet(card)) for _ in range(6)]
    same(named("by hand: what is said in each"), [one.bytes.hex().upper()[:12] for one in said],
         ["1C0201F49789", "1C0201909789", "1C02012C9789", "1C0200C89789", "1C0200649789", "0108AA000000"])
    same(named("and the seconds"), [one.seconds_left for one in said], [5, 4, 3, 2, 1, None])
    card = waiting(0, 2, bench.LOADED)
    absent = read_user_data(card, pin1=None)
    same(named("a refusal by check 6 does not wait"), (card.tap(absent, wait=True).reason, card.provider.taps), (6, 1))
    same(named("one by check 11 does"), (card.tap(sign(card, []), wait=True).reason, card.provider.taps, card.wrong_codes), (11, 4, 0))


def held_and_dropped():
    card = waiting(3, status=bench.LOADED)
    request, before = sign(card, [sha256("a")]), card.image
    same(named("a request that waits is held"), (card.tap(request).seconds_left, card.seconds_left, card.held_request, card.wrong_codes),
         (3, 3, request, 0))
    card.power_off()
    same(named("and forgotten without power"), (card.image, card.seconds_left, card.held_request), (before, 0, b""))
    same(named("so that it begins anew"), [card.tap(request).seconds_left for _ in range(2)], [3, 2])
    same(named("another request that need not wait"), (card.tap(read_user_data(card)).word, card.held_request), (0x9000, b""))
    card.tap(sign(card, [sha256("a")], pin2=sha256("1234")))
    card.tap(request)
    same(named("a wrong code is counted"), (card.wrong_codes, card.seconds_left), (1, 4))
    card.power_off()
    same(named("and stays counted without power"), (card.wrong_codes, card.seconds_left), (1, 0))
    same(named("until a command has gone on"), (card.tap(request, wait=True).word, card.wrong_codes, card.seconds_left), (0x9000, 0, 0))


def wrong_answers_while_waiting():
    """They are not looked at until the wait is over; then the card stays as it is, and the next sending goes on."""
    provider = Given()
    provider.answers = b"none of a key's shape"
    card = Card.from_image(waiting(2).image, provider)
    request = create_wallet(card)
    said = raised(WrongAnswers, lambda: card.tap(request, wait=True))
    same(named("answers that do not fit at the last sending"), (said, card.seconds_left, card.held_request),
         ("the provider's answers have not the shape that the questions ask for", 1, request))
    provider.answers = MadeUp.key(1, card.curve)
    same(named("and the next one goes on"), (card.tap(request).word, card.seconds_left, card.held_request), (0x9000, 0, b""))


def threads_that_wait():
    """No tap of another thread comes between the sendings of one that waits: each would make the other begin anew."""
    card = Card.from_sheet(SHEET + "pause\t3\n", Counting())
    card.tap(create_wallet(card), wait=True)
    at_once(lambda number: card.tap(sign(card, [sha256(f"{number}")]), wait=True))
    same(named("eight threads that wait on one card"), (card.signed_hashes, card.provider.taps), (8, 9 * 4))


waited_out()
held_and_dropped()
wrong_answers_while_waiting()
threads_that_wait()
end()

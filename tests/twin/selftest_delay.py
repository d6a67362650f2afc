"""Checks of the security delay, worked out by hand: line 15, the wait, the count, what drops and what clears. selftest.py runs them."""

from twin.by_hand import ACCESS, CID_FIELD, CONFIRMED, FRESH, PIN1, PIN2, SHEET_LINES, WITH_WALLET, WRITTEN, request, sheet
from twin.card import ask, is_card, personalise, power_off, settle
from twin.image import Card, decode, encode

# As they stand in the examples of document 000, section 13.4.
DEFAULT_PIN1 = "91B4D142823F7D20C5F08DF69122DE43F35F057A988D9619F6D3138485C9A203"
DEFAULT_PIN2 = "2AC9A6746ACA543AF8DFF39894CFE8173AFBA21EB01C6FAE33D52947222855EF"
DRAW = bytes(32)
READ, VALIDATE = request("F2", "1020" + PIN1), request("F4", CONFIRMED)
VALIDATED = CID_FIELD + "18020001" + "0440" + "77" * 64 + "9000"
SIGNED = bytes.fromhex("77" * 64)
WRONG_PIN1 = request("F2", "1020" + PIN2)
# Of an image: the pause, the count, the seconds left, the length of the held request, the request, the last signatures.
AT_PAUSE, AT_COUNT, AT_LEFT, AT_LENGTH, AT_HELD, AT_SIGNATURES = 96, 1805, 1806, 1807, 1809, 2833


def sent(card: Card, one: bytes, answers: bytes = b"") -> tuple:
    """The response in hex, and the card that is left."""
    settled = settle(encode(card), one, DRAW, answers)
    assert settled.number == 0, settled
    return settled.response.hex().upper(), decode(settled.image)


def wait_of(card: Card) -> tuple:
    return card.wrong_codes, card.seconds_left, card.held_request


def with_wait(count: int, left: int, held: bytes, card: Card = FRESH) -> Card:
    return card._replace(wrong_codes=count, seconds_left=left, held_request=held)


# ---------------------------------------------------------------- the sheet and the image


def line_15():
    for value in ("0", "1", "9", "10", "59", "60"):
        answer, image = personalise(sheet() + f"pause\t{value}\n".encode())
        assert answer == 0 and is_card(image) and image[AT_PAUSE] == int(value), value
        assert image == encode(FRESH._replace(pause=int(value)))
    for line in ("pause\t61", "pause\t05", "pause\t00", "pause\t", "pause", "pause\t-1", "pause\t+1", "pause\t1 ", "pause\t1\r", "Pause\t1",
                 "pause\t1\t", "pause 1", "pause\t\t1", "pause\t100", "pause\t6O", "", "seed\t" + "00" * 16):
        assert personalise(sheet() + (line + "\n").encode()) == (15, None), line
    assert personalise(sheet() + b"pause\t1") == (15, None)
    for after in (b"\n", b"x", b"pause\t1\n", b"\0", b"pause\t61\n"):
        assert personalise(sheet() + b"pause\t1\n" + after) == (16, None), after
    lines = [line.encode() + b"\n" for line in SHEET_LINES]
    assert personalise(b"".join(lines[:13]) + b"pause\t1\n" + lines[13]) == (14, None)
    assert personalise(b"pause\t1\n" + b"".join(lines)) == (1, None)


def image_by_the_byte():
    image = encode(FRESH._replace(pause=3))
    assert len(image) == 3474 and image[AT_PAUSE] == 3
    held = encode(with_wait(7, 120, VALIDATE, WITH_WALLET._replace(last_signatures=b"\x99" * 64)))
    assert held[AT_COUNT:AT_HELD].hex() == "07780053" and len(VALIDATE) == 0x53
    assert held[AT_HELD:AT_SIGNATURES] == VALIDATE + bytes(1024 - 0x53) and held[AT_SIGNATURES:] == b"\1" + b"\x99" * 64 + bytes(576)


def what_is_a_wait():
    """Seconds left exactly where a request is held, 1 to 120; the request of 6 to 1,024 bytes, whatever they are; the count up to 60."""
    good = (0, 0, 0), (60, 0, 0), (0, 1, 6), (60, 120, 1024), (5, 7, 40)
    bad = (61, 0, 0), (255, 0, 0), (0, 1, 0), (0, 120, 0), (0, 0, 6), (0, 121, 6), (0, 255, 6), (0, 1, 1), (0, 1, 5), (0, 0, 5), (61, 1, 6)
    for card in (FRESH, WITH_WALLET, FRESH._replace(activated=0)):
        for rows, still in ((good, True), (bad, False)):
            for count, left, length in rows:
                for byte in (b"\0", b"\xff"):
                    assert is_card(encode(with_wait(count, left, byte * length, card))) == still, (count, left, length)
    assert is_card(encode(FRESH._replace(pause=60))) and not is_card(encode(FRESH._replace(pause=61)))
    full = bytearray(encode(with_wait(0, 1, b"\xff" * 1024)))
    for high, low in ((4, 1), (5, 0), (255, 255), (3, 255), (0, 0)):
        full[AT_LENGTH:AT_HELD] = bytes([high, low])
        assert not is_card(bytes(full)), (high, low)
    without = encode(FRESH)[:AT_PAUSE] + encode(FRESH)[AT_PAUSE + 1 : AT_COUNT] + encode(FRESH)[AT_SIGNATURES:]
    assert len(without) == 2445 and settle(without, READ, DRAW, b"").number == 1


# ---------------------------------------------------------------- the wait


def three_seconds():
    """Over at the fourth sending and not before; in between nothing but the wait is another."""
    card = FRESH._replace(pause=3)
    before = encode(card)
    for left, response in ((3, "1C02012C9789"), (2, "1C0200C89789"), (1, "1C0200649789")):
        assert ask(encode(card), VALIDATE, DRAW) == (0, 0, 0x9789, b"")
        settled = settle(encode(card), VALIDATE, DRAW, b"\xee")
        assert settled[:3] == (0, 0, 0x9789) and settled.response.hex().upper() == response
        assert settled.image == before[:AT_LEFT] + bytes([left, 0, 0x53]) + VALIDATE + bytes(1024 - 0x53) + before[AT_SIGNATURES:]
        card = decode(settled.image)
    assert ask(encode(card), VALIDATE, DRAW).questions.hex() == "0400000100020001"
    assert sent(card, VALIDATE, SIGNED) == (VALIDATED, FRESH._replace(pause=3, card_validation_counter=1))


def two_minutes():
    card = FRESH._replace(pause=60, wrong_codes=60)
    for left in range(120, 0, -1):
        response, card = sent(card, VALIDATE)
        assert response == f"1C02{100 * left:04X}9789" and wait_of(card) == (60, left, VALIDATE)
        assert left != 120 or response == "1C022EE09789"
    assert sent(card, VALIDATE, SIGNED) == (VALIDATED, FRESH._replace(pause=60, card_validation_counter=1))


def who_waits():
    """The pause for commands that need PIN2, the count for all."""
    card = FRESH._replace(pause=5, wrong_codes=2)
    challenge = "1610" + "C1" * 16
    for ins, payload, seconds in (
        ("F2", "1020" + PIN1, 2), ("E1", ACCESS, 2), ("F7", ACCESS, 2), ("F3", ACCESS + challenge, 2), ("F6", WRITTEN + "350400000001", 2),
        ("FE", ACCESS, 2), ("F8", CONFIRMED, 7), ("FA", CONFIRMED, 7), ("F4", CONFIRMED, 7), ("E0", CONFIRMED + "2A0141", 2),
        ("E0", CONFIRMED + "2C0400000001", 2), ("E0", CONFIRMED + "2B0141", 7), ("E0", CONFIRMED + "2D0400000001", 7), ("E0", CONFIRMED, 2),
    ):
        assert sent(card, request(ins, payload))[0] == f"1C02{100 * seconds:04X}9789", (ins, payload)
    loaded = WITH_WALLET._replace(pause=5, wrong_codes=2)
    for ins, payload, seconds in (("F9", ACCESS + challenge, 2), ("FB", CONFIRMED, 7), ("FC", CONFIRMED, 7)):
        assert sent(loaded, request(ins, payload))[0] == f"1C02{100 * seconds:04X}9789", ins


def the_same_bytes():
    """Of the request alone, and all of them: under the other Lc it is another, and waits from the beginning."""
    other = VALIDATE[:4] + b"\0\0" + VALIDATE[4:]
    card = with_wait(0, 2, VALIDATE, FRESH._replace(pause=3))
    assert wait_of(sent(card, VALIDATE)[1]) == (0, 1, VALIDATE)
    assert wait_of(sent(card, other)[1]) == (0, 3, other)
    for held in (VALIDATE[:-1], VALIDATE + b"\0", VALIDATE[:-1] + b"\x23"):
        assert wait_of(sent(with_wait(0, 1, held, FRESH._replace(pause=3)), VALIDATE)[1]) == (0, 3, VALIDATE), held.hex()
    settled = settle(encode(card), VALIDATE, b"\xff" * 32, bytes(2000))
    assert wait_of(decode(settled.image)) == (0, 1, VALIDATE)


def left_decides():
    """In an image by hand, whatever count and pause would give."""
    assert sent(with_wait(0, 120, READ), READ)[0] == "1C022E7C9789"
    response, card = sent(with_wait(60, 1, VALIDATE, FRESH._replace(pause=60)), VALIDATE, SIGNED)
    assert response == VALIDATED and wait_of(card) == (0, 0, b"")


# ---------------------------------------------------------------- the count


def what_counts():
    asking, key = FRESH._replace(cvc_used=1, wrong_codes=9), bytes.fromhex("04" + "33" * 64)
    pin1 = {"1020" + PIN1: None, "": 0, "1000": 1, "101F" + PIN1[2:]: 1, "1020" + PIN2: 1,
            "1020" + DEFAULT_PIN1: 0, "1020" + DEFAULT_PIN2: 1}
    pin2 = {"1120" + PIN2: None, "": 0, "1100": 1, "111F" + PIN2[2:]: 1, "1120" + PIN1: 1,
            "1120" + DEFAULT_PIN2: 0, "1120" + DEFAULT_PIN1: 1}
    cvc = {"1903313233": None, "": 0, "1900": 1, "19023132": 1, "1903313234": 1, "1903303030": 1}
    for one, of_one in pin1.items():
        for two, of_two in pin2.items():
            for three, of_three in cvc.items():
                counted = next((of for of in (of_one, of_two, of_three) if of is not None), None)
                settled = settle(encode(asking), request("F8", one + CID_FIELD + two + three), DRAW, key)
                if counted is None:
                    assert settled.word == 0x9789
                else:
                    assert settled.word == 0x6A86 and settled.image[AT_COUNT] == 9 + counted, (one, two, three)


def up_to_60():
    card = FRESH._replace(wrong_codes=58)
    for count in (59, 60, 60):
        response, card = sent(card, WRONG_PIN1)
        assert (response, wait_of(card)) == ("6A86", (count, 0, b""))
    assert sent(card, READ)[0] == "1C0217709789"


def not_counted():
    """Over a CID, over a code that is not needed, behind an earlier check."""
    wrong2, cvc = "1120" + PIN1, "1903393939"
    for ins, payload in (("F4", "1020" + PIN1 + wrong2), ("F4", "1020" + PIN1 + "0108" + "00" * 8 + wrong2), ("FB", ACCESS + wrong2),
                         ("F4", ACCESS + wrong2 + wrong2), ("F2", "1020" + PIN2 + "10"), ("F2", ("1020" + PIN2) * 2)):
        response, card = sent(FRESH, request(ins, payload))
        assert response in ("6A86", "6985") and card == FRESH, payload
    asking = FRESH._replace(cvc_used=1)
    for ins, payload in (("F2", "1020" + PIN1 + wrong2 + cvc), ("E0", ACCESS + wrong2 + "2A0141"), ("E1", ACCESS + "1100" + "1900")):
        response, card = sent(asking, request(ins, payload))
        assert response.endswith("9000") and wait_of(card) == (0, 0, b""), payload
    assert sent(asking, request("F4", CONFIRMED + cvc), SIGNED)[0] == VALIDATED


# ---------------------------------------------------------------- what drops, what clears, what leaves it


def what_drops():
    card = with_wait(2, 3, VALIDATE, FRESH._replace(pause=9))
    for one, count in ((b"", 2), (b"\x80" + READ[1:], 2), (b"\0\xf5" + READ[2:], 2), (READ[:3] + b"\1" + READ[4:], 2),
                       (request("F2", "10"), 2), (WRONG_PIN1, 3), (request("F3", "1020" + PIN1), 2), (request("FB", CONFIRMED), 2), (request("F4", ACCESS), 2),
                       (request("F4", ACCESS + "1120" + DEFAULT_PIN2), 2), (request("F4", ACCESS + "1100"), 3)):
        assert wait_of(sent(card, one)[1]) == (count, 0, b""), one.hex()
    assert wait_of(sent(card, READ)[1]) == (2, 2, READ)
    assert sent(card._replace(wrong_codes=0), READ)[1] == FRESH._replace(pause=9)
    asleep = with_wait(2, 3, VALIDATE, FRESH._replace(activated=0))
    assert wait_of(sent(asleep, request("FB", CONFIRMED))[1]) == (2, 0, b"")


def power_goes():
    held = with_wait(2, 3, VALIDATE, WITH_WALLET._replace(pause=9))
    for card in (held, WITH_WALLET, WITH_WALLET._replace(wrong_codes=60)):
        left = card._replace(seconds_left=0, held_request=b"")
        assert power_off(encode(card)) == power_off(encode(card), 5000) == (0, 0, 0, b"", encode(left))
        assert power_off(encode(card), 4095) == (2, 0, 0, b"", None)
        assert power_off(encode(card)[:-1], 4095) == (1, 0, 0, b"", None)


def what_clears():
    """Whatever comes after check 10 without a wait left, checks 11 to 13 too; not number 4."""
    for card, one, answers, response in (
        (FRESH, request("E0", ACCESS), "", "6A86"),
        (FRESH._replace(issuer_data_counter=9), request("F6", WRITTEN + "350400000009"), "", "6985"),
        (FRESH, request("F6", WRITTEN + "350400000001"), "00", "6286"),
        (FRESH, request("E1", ACCESS), "", CID_FIELD + "2C04000000002D04000000009000"),
    ):
        held = with_wait(5, 1, one, card)
        assert sent(held, one, bytes.fromhex(answers)) == (response, card), one.hex()
        assert wait_of(sent(with_wait(5, 2, one, card), one)[1]) == (5, 1, one)


def what_leaves_it():
    """Number 4 at the last sending, of the held request and of another; numbers 1 to 3; ask."""
    card = with_wait(0, 1, VALIDATE, FRESH._replace(pause=3))
    image = encode(card)
    for one, answers in ((VALIDATE, b""), (VALIDATE, SIGNED + b"\0"), (READ, b"\0"), (READ, SIGNED)):
        assert settle(image, one, DRAW, answers) == (4, 0, 0, b"", None)
    assert settle(image, VALIDATE, DRAW, SIGNED).response.hex().upper() == VALIDATED
    assert settle(image, VALIDATE, DRAW[:31], SIGNED) == (3, 0, 0, b"", None)
    assert settle(image, VALIDATE, DRAW, SIGNED, 2047) == settle(image, VALIDATE, DRAW, SIGNED, 2048, 4095) == (2, 0, 0, b"", None)
    assert settle(encode(card._replace(seconds_left=2)), VALIDATE, DRAW, b"\2").response.hex().upper() == "1C0200649789"


def held_and_refused():
    """Still a card; when it is sent it is refused as any other, and dropped."""
    for held, response, count in ((bytes(6), "6700", 0), (WRONG_PIN1, "6A86", 1), (request("FB", CONFIRMED), "6985", 0)):
        card = with_wait(0, 120, held)
        assert is_card(encode(card)) and sent(card, held) == (response, FRESH._replace(wrong_codes=count)), held.hex()


TESTS = (
    line_15, image_by_the_byte, what_is_a_wait, three_seconds, two_minutes, who_waits, the_same_bytes, left_decides, what_counts, up_to_60,
    not_counted, what_drops, power_goes, what_clears, what_leaves_it, held_and_refused,
)

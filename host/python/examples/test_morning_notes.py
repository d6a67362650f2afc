"""What students get wrong, as tests of an app: run with pytest and nothing else running."""

import pytest

from merelstof import Card, MadeUp, create_wallet, read_issuer_data, sha256, sign, write_issuer_data

SHEET = """\
cid	AA00000000016675
pin1	91B4D142823F7D20C5F08DF69122DE43F35F057A988D9619F6D3138485C9A203
pin2	2AC9A6746ACA543AF8DFF39894CFE8173AFBA21EB01C6FAE33D52947222855EF
cvc	123
curve	secp256k1
max	9
reusable	1
usecvc	0
setpin1	1
setpin2	1
nopurge	0
replay	1
active	1
seed	00112233445566778899AABBCCDDEEFF
"""
CHECKS = [sha256(text) for text in ("hours 1204", "oil 4.1 bar", "coolant full", "belt checked", "filter changed")]


@pytest.fixture
def card():
    return Card.from_sheet(SHEET, MadeUp())


@pytest.fixture
def wallet(card):
    assert card.tap(create_wallet(card)).ok
    return card


def test_five_hashes_cost_one_signature(wallet):
    signed = wallet.tap(sign(wallet, CHECKS))
    assert signed.word == 0x9000
    assert len(signed["Signature"]) == 5 * 64
    assert (wallet.remaining, wallet.signed_hashes) == (8, 5)


def test_asking_for_the_last_signatures_again_costs_nothing(wallet):
    signed = wallet.tap(sign(wallet, CHECKS))
    before = wallet.image
    assert wallet.tap(sign(wallet)) == signed
    assert wallet.image == before


def test_a_refusal_uses_nothing_up_but_a_wrong_code_costs_a_second(wallet):
    wallet.tap(sign(wallet, CHECKS))
    refused = wallet.tap(sign(wallet, CHECKS, pin2=sha256("1234")))
    assert refused.refused and refused.name == "SW_INVALID_PARAMS"
    assert (refused.reason, refused.why) == (10, "PIN2 or the CVC is absent or is not the card's")
    assert (wallet.remaining, wallet.signed_hashes, wallet.wrong_codes) == (8, 5, 1)
    again = sign(wallet, CHECKS)
    assert wallet.tap(again).seconds_left == 1
    assert wallet.tap(again).ok


def test_an_app_that_waits_keeps_the_card_in_the_field():
    card = Card.from_sheet(SHEET + "pause\t3\n", MadeUp())
    request = create_wallet(card)
    assert [card.tap(request).seconds_left for _ in range(2)] == [3, 2]
    card.power_off()
    assert card.tap(request).seconds_left == 3
    assert card.tap(request, wait=True).ok


def write_note(card, text, counter):
    data = text.encode()
    return card.tap(write_issuer_data(card, data, card.provider.issue(card.cid, data, counter), counter))


def test_a_note_with_a_counter_that_is_not_above_the_stored_one_is_refused(card):
    assert write_note(card, "06:59 coolant topped up", 709).word == 0x9000
    refused = write_note(card, "07:00 LOW OIL PRESSURE 0.8 bar", 700)
    assert refused.name == "SW_INVALID_STATUS"
    assert card.issuer_data == b"06:59 coolant topped up"
    stored = card.tap(read_issuer_data(card)).number("Issuer_Data_Counter")
    assert write_note(card, "07:00 LOW OIL PRESSURE 0.8 bar", stored + 1).ok
    assert card.issuer_data == b"07:00 LOW OIL PRESSURE 0.8 bar"

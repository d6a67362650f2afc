"""The thirteen commands: where each is allowed, what it needs and asks of the provider, what it answers and leaves."""

from hashlib import sha256
from typing import NamedTuple

from twin.image import CURVE_NAME, EMPTY, LOADED, PURGED, SIGNATURE_LENGTH, TOP_16, TOP_32, Card
from twin.questions import question
from twin.request import Tag, Tap, big_endian, field, number

SW_PROCESS_COMPLETED = 0x9000
DATA_ROOM = 512
MOST_HASHES = 10
HASH_LENGTH = 32
DEFAULT_PIN1 = sha256(b"000000").digest()
DEFAULT_PIN2 = sha256(b"000").digest()
ACCESS = (Tag.PIN1, Tag.CID)
CODES = (Tag.PIN2, Tag.CVC)


class Done(NamedTuple):
    """What a command leaves: the next card, and the response between the CID and the status word."""

    card: Card
    body: bytes
    word: int = SW_PROCESS_COMPLETED


class Command:
    """What a command may say of itself. Each below says what differs. `reads` are the tags of its entry: none may stand twice."""

    reads = ACCESS
    allowed_in = (EMPTY, LOADED)
    before_activation = False
    ignores_cid = False
    asks_pin2 = False
    asks_cvc = False

    def needs_pin2(self, tap: Tap) -> bool:
        return self.asks_pin2

    def fields_fit(self, tap: Tap) -> bool:
        return True

    def condition(self, tap: Tap) -> bool:
        return True

    def questions(self, tap: Tap) -> list:
        return []

    def perform(self, tap: Tap, answers: list) -> Done:
        raise NotImplementedError


class ReadCard(Command):
    reads = (Tag.PIN1,)
    allowed_in = (EMPTY, LOADED, PURGED)
    before_activation = True
    ignores_cid = True

    def perform(self, tap, answers):
        return Done(tap.card, self.told(tap.card))

    @staticmethod
    def told(card):
        body = field(Tag.STATUS, big_endian(card.status, 1))
        if not card.activated:
            return body + field(Tag.IS_ACTIVATED, b"\0") + field(Tag.ACTIVATION_SEED, card.activation_seed)
        body += field(Tag.CURVE_ID, CURVE_NAME[card.curve])
        body += field(Tag.SIGNED_HASHES, big_endian(card.signed_hashes, 4))
        if card.status == LOADED:
            body += field(Tag.WALLET_PUBLIC_KEY, card.wallet_public_key)
            body += field(Tag.REMAINING, big_endian(card.remaining, 4))
        return body


class CreateWallet(Command):
    reads = (*ACCESS, *CODES)
    allowed_in = (EMPTY,)
    asks_pin2 = True
    asks_cvc = True

    def condition(self, tap):
        return tap.card.wallet_number < TOP_16

    def questions(self, tap):
        return [question(tap.card, 1, b"")]

    def perform(self, tap, answers):
        [key] = answers
        card = tap.card._replace(
            status=LOADED,
            wallet_number=tap.card.wallet_number + 1,
            remaining=tap.card.max_signatures,
            wallet_public_key=key,
        )
        return Done(card, field(Tag.STATUS, big_endian(LOADED, 1)) + field(Tag.WALLET_PUBLIC_KEY, key))


class CheckWallet(Command):
    reads = (*ACCESS, Tag.CHALLENGE, Tag.PUBLIC_KEY_CHALLENGE)
    allowed_in = (LOADED,)

    def fields_fit(self, tap):
        return tap.length(Tag.CHALLENGE) == 16 and tap.length(Tag.PUBLIC_KEY_CHALLENGE) in (-1, 0, 16)

    def questions(self, tap):
        asked = [question(tap.card, 3, tap.value(Tag.CHALLENGE) + tap.salt)]
        if tap.has(Tag.PUBLIC_KEY_CHALLENGE):
            asked.append(question(tap.card, 4, self.attested(tap)))
        return asked

    def attested(self, tap):
        challenge = tap.value(Tag.PUBLIC_KEY_CHALLENGE)
        return tap.card.wallet_public_key + (challenge + tap.key_salt if challenge else b"")

    def perform(self, tap, answers):
        counter = min(tap.card.check_wallet_counter + 1, TOP_32)
        body = field(Tag.SALT, tap.salt) + field(Tag.WALLET_SIGNATURE, answers[0])
        if tap.has(Tag.PUBLIC_KEY_CHALLENGE):
            body += field(Tag.CHECK_WALLET_COUNTER, big_endian(counter, 4))
            body += field(Tag.PUBLIC_KEY_SALT, tap.key_salt) if tap.value(Tag.PUBLIC_KEY_CHALLENGE) else b""
            body += field(Tag.CARD_SIGNATURE, answers[1])
        return Done(tap.card._replace(check_wallet_counter=counter), body)


class SetPin(Command):
    reads = (*ACCESS, *CODES, Tag.NEW_PIN1, Tag.NEW_PIN2)
    asks_pin2 = True
    asks_cvc = True

    def fields_fit(self, tap):
        return tap.length(Tag.NEW_PIN1) == 32 and tap.length(Tag.NEW_PIN2) == 32

    def differs(self, tap):
        """Whether the new PIN1, and whether the new PIN2, is another than the stored one."""
        return tap.value(Tag.NEW_PIN1) != tap.card.pin1, tap.value(Tag.NEW_PIN2) != tap.card.pin2

    def condition(self, tap):
        pin1_differs, pin2_differs = self.differs(tap)
        return (tap.card.pin1_may_change or not pin1_differs) and (tap.card.pin2_may_change or not pin2_differs)

    def perform(self, tap, answers):
        pin1_differs, pin2_differs = self.differs(tap)
        card = tap.card._replace(pin1=tap.value(Tag.NEW_PIN1), pin2=tap.value(Tag.NEW_PIN2))
        return Done(card, b"", SW_PROCESS_COMPLETED + 1 * pin1_differs + 2 * pin2_differs)


class Sign(Command):
    reads = (*ACCESS, *CODES, Tag.HASH_ARRAY, Tag.HASH_SIZE)
    allowed_in = (LOADED,)
    asks_pin2 = True
    asks_cvc = True

    def is_repeat(self, tap):
        return not tap.has(Tag.HASH_ARRAY) and not tap.has(Tag.HASH_SIZE)

    def hashes(self, tap):
        array = tap.value(Tag.HASH_ARRAY)
        return [array[at : at + HASH_LENGTH] for at in range(0, len(array), HASH_LENGTH)]

    def fields_fit(self, tap):
        if self.is_repeat(tap):
            return True
        whole = [count * HASH_LENGTH for count in range(1, MOST_HASHES + 1)]
        return tap.value(Tag.HASH_SIZE) == big_endian(HASH_LENGTH, 1) and tap.length(Tag.HASH_ARRAY) in whole

    def condition(self, tap):
        if self.is_repeat(tap):
            return tap.card.last_signatures != b""
        return tap.card.remaining > 0 and tap.card.signed_hashes + len(self.hashes(tap)) <= TOP_32

    def questions(self, tap):
        return [] if self.is_repeat(tap) else [question(tap.card, 2, one) for one in self.hashes(tap)]

    def perform(self, tap, answers):
        card = tap.card if self.is_repeat(tap) else self.signed(tap.card, answers)
        return Done(
            card,
            field(Tag.WALLET_SIGNATURE, card.last_signatures)
            + field(Tag.REMAINING, big_endian(card.remaining, 4))
            + field(Tag.SIGNED_HASHES, big_endian(card.signed_hashes, 4)),
        )

    def signed(self, card, signatures):
        return card._replace(
            remaining=card.remaining - 1,
            signed_hashes=card.signed_hashes + len(signatures),
            last_signatures=b"".join(signatures),
            user_counter=(card.user_counter + 1) & TOP_32,
            user_protected_counter=(card.user_protected_counter + 1) & TOP_32,
        )


class VerifyCard(Command):
    reads = (*ACCESS, Tag.CHALLENGE)
    allowed_in = (EMPTY, LOADED, PURGED)

    def fields_fit(self, tap):
        return tap.length(Tag.CHALLENGE) == 16

    def questions(self, tap):
        return [question(tap.card, 4, tap.value(Tag.CHALLENGE) + tap.salt)]

    def perform(self, tap, answers):
        return Done(tap.card, field(Tag.SALT, tap.salt) + field(Tag.CARD_SIGNATURE, answers[0]))


class ValidateCard(Command):
    reads = (*ACCESS, Tag.PIN2)
    asks_pin2 = True

    def condition(self, tap):
        return tap.card.card_validation_counter < TOP_16

    def risen(self, tap):
        return tap.card.card_validation_counter + 1

    def questions(self, tap):
        return [question(tap.card, 4, big_endian(self.risen(tap), 2))]

    def perform(self, tap, answers):
        counter = self.risen(tap)
        body = field(Tag.CARD_VALIDATION_COUNTER, big_endian(counter, 2)) + field(Tag.CARD_SIGNATURE, answers[0])
        return Done(tap.card._replace(card_validation_counter=counter), body)


class PurgeWallet(Command):
    reads = (*ACCESS, Tag.PIN2)
    allowed_in = (LOADED,)
    asks_pin2 = True

    def condition(self, tap):
        return not tap.card.purge_prohibited

    def perform(self, tap, answers):
        status = EMPTY if tap.card.reusable else PURGED
        card = tap.card._replace(status=status, remaining=0, wallet_public_key=b"", last_signatures=b"")
        return Done(card, field(Tag.STATUS, big_endian(status, 1)))


class ReadUserData(Command):
    allowed_in = (EMPTY, LOADED, PURGED)

    def perform(self, tap, answers):
        card = tap.card
        body = field(Tag.USER_DATA, card.user_data) if card.user_data else b""
        body += field(Tag.USER_PROTECTED_DATA, card.user_protected_data) if card.user_protected_data else b""
        body += field(Tag.USER_COUNTER, big_endian(card.user_counter, 4))
        body += field(Tag.USER_PROTECTED_COUNTER, big_endian(card.user_protected_counter, 4))
        return Done(card, body)


class WriteUserData(Command):
    DATA = (Tag.USER_DATA, Tag.USER_PROTECTED_DATA)
    COUNTERS = (Tag.USER_COUNTER, Tag.USER_PROTECTED_COUNTER)
    reads = (*ACCESS, Tag.PIN2, *DATA, *COUNTERS)

    def needs_pin2(self, tap):
        return tap.has(Tag.USER_PROTECTED_DATA) or tap.has(Tag.USER_PROTECTED_COUNTER)

    def fields_fit(self, tap):
        return (
            any(tap.has(tag) for tag in self.DATA + self.COUNTERS)
            and all(1 <= tap.length(tag) <= DATA_ROOM for tag in self.DATA if tap.has(tag))
            and all(tap.length(tag) == 4 for tag in self.COUNTERS if tap.has(tag))
        )

    def perform(self, tap, answers):
        card = tap.card
        if tap.has(Tag.USER_DATA):
            card = card._replace(user_data=tap.value(Tag.USER_DATA))
        if tap.has(Tag.USER_PROTECTED_DATA):
            card = card._replace(user_protected_data=tap.value(Tag.USER_PROTECTED_DATA))
        if tap.has(Tag.USER_COUNTER):
            card = card._replace(user_counter=number(tap.value(Tag.USER_COUNTER)))
        if tap.has(Tag.USER_PROTECTED_COUNTER):
            card = card._replace(user_protected_counter=number(tap.value(Tag.USER_PROTECTED_COUNTER)))
        return Done(card, b"")


def mode_fits(tap: Tap) -> bool:
    return tap.value(Tag.MODE) in (None, b"\0")


class WriteIssuerData(Command):
    reads = (*ACCESS, Tag.ISSUER_DATA, Tag.ISSUER_DATA_COUNTER, Tag.ISSUER_DATA_SIGNATURE, Tag.MODE)

    def fields_fit(self, tap):
        return (
            mode_fits(tap)
            and 1 <= tap.length(Tag.ISSUER_DATA) <= DATA_ROOM
            and tap.length(Tag.ISSUER_DATA_SIGNATURE) == SIGNATURE_LENGTH
            and (not tap.card.replay_protection or tap.length(Tag.ISSUER_DATA_COUNTER) == 4)
        )

    def condition(self, tap):
        if not tap.card.replay_protection:
            return True
        return number(tap.value(Tag.ISSUER_DATA_COUNTER)) > tap.card.issuer_data_counter

    def questions(self, tap):
        signature, data = tap.value(Tag.ISSUER_DATA_SIGNATURE), tap.value(Tag.ISSUER_DATA)
        counter = tap.value(Tag.ISSUER_DATA_COUNTER) if tap.card.replay_protection else b""
        return [question(tap.card, 5, signature + tap.card.cid + data + counter)]

    def perform(self, tap, answers):
        card = tap.card._replace(
            issuer_data=tap.value(Tag.ISSUER_DATA),
            issuer_data_signature=tap.value(Tag.ISSUER_DATA_SIGNATURE),
        )
        if card.replay_protection:
            card = card._replace(issuer_data_counter=number(tap.value(Tag.ISSUER_DATA_COUNTER)))
        return Done(card, b"")


class ReadIssuerData(Command):
    reads = (*ACCESS, Tag.MODE)
    allowed_in = (EMPTY, LOADED, PURGED)
    before_activation = True

    def fields_fit(self, tap):
        return mode_fits(tap)

    def perform(self, tap, answers):
        card, body = tap.card, b""
        if card.issuer_data:
            body += field(Tag.ISSUER_DATA, card.issuer_data)
            body += field(Tag.ISSUER_DATA_SIGNATURE, card.issuer_data_signature)
        if card.replay_protection:
            body += field(Tag.ISSUER_DATA_COUNTER, big_endian(card.issuer_data_counter, 4))
        return Done(card, body)


class ActivateCard(Command):
    """It answers as READ_CARD does on the card that it leaves."""

    reads = (*ACCESS, Tag.RESET_PIN1, Tag.ACTIVATION_SIGNATURE)
    allowed_in = (EMPTY, LOADED, PURGED)
    before_activation = True

    def fields_fit(self, tap):
        return tap.value(Tag.RESET_PIN1) in (b"\0", b"\1") and tap.length(Tag.ACTIVATION_SIGNATURE) == SIGNATURE_LENGTH

    def condition(self, tap):
        return not tap.card.activated

    def questions(self, tap):
        signature, reset = tap.value(Tag.ACTIVATION_SIGNATURE), tap.value(Tag.RESET_PIN1)
        return [question(tap.card, 6, signature + tap.card.cid + tap.card.activation_seed + reset)]

    def perform(self, tap, answers):
        card = tap.card._replace(activated=1)
        if tap.value(Tag.RESET_PIN1) == b"\1":
            card = card._replace(pin1=DEFAULT_PIN1)
        return Done(card, ReadCard.told(card))


COMMANDS = {
    0xF2: ReadCard(),
    0xF8: CreateWallet(),
    0xF9: CheckWallet(),
    0xFA: SetPin(),
    0xFB: Sign(),
    0xF3: VerifyCard(),
    0xF4: ValidateCard(),
    0xFC: PurgeWallet(),
    0xE1: ReadUserData(),
    0xE0: WriteUserData(),
    0xF6: WriteIssuerData(),
    0xF7: ReadIssuerData(),
    0xFE: ActivateCard(),
}

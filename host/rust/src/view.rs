//! The values of a card's image, by docs/IMAGE.md: each with its length there, in the order in which they stand there.

#[derive(Clone, Copy, Debug, PartialEq, Eq)]
pub enum Curve {
    Secp256k1,
    Ed25519,
}

#[derive(Clone, Copy, Debug, PartialEq, Eq)]
pub enum Status {
    Empty,
    Loaded,
    Purged,
}

impl Curve {
    pub(crate) fn of(byte: u8) -> Curve {
        if byte == 1 {
            Curve::Secp256k1
        } else {
            Curve::Ed25519
        }
    }
}

/// Where a value stands; one of changing length with the count before it.
#[derive(Clone, Copy)]
struct Place {
    offset: usize,
    length: usize,
}

impl Place {
    /// So many bytes behind this value.
    const fn then(self, length: usize) -> Place {
        Place { offset: self.offset + self.length, length }
    }
}

const PIN1: Place = Place { offset: 0, length: 32 };
const PIN2: Place = PIN1.then(32);
const CID: Place = PIN2.then(8);
const CVC: Place = CID.then(3);
const CURVE: Place = CVC.then(1);
const MAX_SIGNATURES: Place = CURVE.then(4);
const ACTIVATION_SEED: Place = MAX_SIGNATURES.then(16);
const PAUSE: Place = ACTIVATION_SEED.then(1);
const REUSABLE: Place = PAUSE.then(1);
const CVC_USED: Place = REUSABLE.then(1);
const PIN1_MAY_CHANGE: Place = CVC_USED.then(1);
const PIN2_MAY_CHANGE: Place = PIN1_MAY_CHANGE.then(1);
const PURGE_PROHIBITED: Place = PIN2_MAY_CHANGE.then(1);
const REPLAY_PROTECTION: Place = PURGE_PROHIBITED.then(1);
const ACTIVATED: Place = REPLAY_PROTECTION.then(1);
const STATUS: Place = ACTIVATED.then(1);
const WALLET_NUMBER: Place = STATUS.then(2);
const REMAINING: Place = WALLET_NUMBER.then(4);
const SIGNED_HASHES: Place = REMAINING.then(4);
const WALLET_PUBLIC_KEY: Place = SIGNED_HASHES.then(1 + 65);
const CHECK_WALLET_COUNTER: Place = WALLET_PUBLIC_KEY.then(4);
const CARD_VALIDATION_COUNTER: Place = CHECK_WALLET_COUNTER.then(2);
const USER_COUNTER: Place = CARD_VALIDATION_COUNTER.then(4);
const USER_PROTECTED_COUNTER: Place = USER_COUNTER.then(4);
const USER_DATA: Place = USER_PROTECTED_COUNTER.then(2 + 512);
const USER_PROTECTED_DATA: Place = USER_DATA.then(2 + 512);
const ISSUER_DATA: Place = USER_PROTECTED_DATA.then(2 + 512);
const ISSUER_DATA_SIGNATURE: Place = ISSUER_DATA.then(64);
const ISSUER_DATA_COUNTER: Place = ISSUER_DATA_SIGNATURE.then(4);
const WRONG_CODES: Place = ISSUER_DATA_COUNTER.then(1);
const SECONDS_LEFT: Place = WRONG_CODES.then(1);
const HELD_REQUEST: Place = SECONDS_LEFT.then(2 + 1024);
const LAST_SIGNATURES: Place = HELD_REQUEST.then(1 + 10 * 64);

/// What an image tells. Only an image that is a card has a view: a `Card` gives it.
#[derive(Clone, Copy, Debug)]
pub struct View<'a>(pub(crate) &'a [u8]);

pub(crate) fn number(bytes: &[u8]) -> u32 {
    bytes.iter().fold(0, |sum, byte| sum << 8 | u32::from(*byte))
}

impl<'a> View<'a> {
    fn at(self, place: Place) -> &'a [u8] {
        &self.0[place.offset..place.offset + place.length]
    }

    fn number(self, place: Place) -> u32 {
        number(self.at(place))
    }

    fn byte(self, place: Place) -> u8 {
        self.0[place.offset]
    }

    fn flag(self, place: Place) -> bool {
        self.byte(place) == 1
    }

    /// A count of the bytes or of the units, and after it the value.
    fn counted(self, place: Place, count_length: usize, unit: usize) -> &'a [u8] {
        let (count, room) = self.at(place).split_at(count_length);
        &room[..number(count) as usize * unit]
    }

    pub fn pin1(self) -> &'a [u8] {
        self.at(PIN1)
    }

    pub fn pin2(self) -> &'a [u8] {
        self.at(PIN2)
    }

    pub fn cid(self) -> &'a [u8] {
        self.at(CID)
    }

    pub fn cvc(self) -> &'a [u8] {
        self.at(CVC)
    }

    pub fn curve(self) -> Curve {
        Curve::of(self.byte(CURVE))
    }

    pub fn max_signatures(self) -> u32 {
        self.number(MAX_SIGNATURES)
    }

    /// For good, though READ_CARD tells it only until the card is activated.
    pub fn activation_seed(self) -> &'a [u8] {
        self.at(ACTIVATION_SEED)
    }

    /// The seconds that a command which needs PIN2 has to wait, 0 to 60.
    pub fn pause(self) -> u32 {
        self.number(PAUSE)
    }

    pub fn reusable(self) -> bool {
        self.flag(REUSABLE)
    }

    pub fn cvc_used(self) -> bool {
        self.flag(CVC_USED)
    }

    pub fn pin1_may_change(self) -> bool {
        self.flag(PIN1_MAY_CHANGE)
    }

    pub fn pin2_may_change(self) -> bool {
        self.flag(PIN2_MAY_CHANGE)
    }

    pub fn purge_prohibited(self) -> bool {
        self.flag(PURGE_PROHIBITED)
    }

    pub fn replay_protection(self) -> bool {
        self.flag(REPLAY_PROTECTION)
    }

    pub fn activated(self) -> bool {
        self.flag(ACTIVATED)
    }

    pub fn status(self) -> Status {
        [Status::Empty, Status::Loaded, Status::Purged][self.byte(STATUS) as usize - 1]
    }

    pub fn wallet_number(self) -> u32 {
        self.number(WALLET_NUMBER)
    }

    pub fn remaining(self) -> u32 {
        self.number(REMAINING)
    }

    pub fn signed_hashes(self) -> u32 {
        self.number(SIGNED_HASHES)
    }

    pub fn wallet_public_key(self) -> &'a [u8] {
        self.counted(WALLET_PUBLIC_KEY, 1, 1)
    }

    pub fn check_wallet_counter(self) -> u32 {
        self.number(CHECK_WALLET_COUNTER)
    }

    pub fn card_validation_counter(self) -> u32 {
        self.number(CARD_VALIDATION_COUNTER)
    }

    pub fn user_counter(self) -> u32 {
        self.number(USER_COUNTER)
    }

    pub fn user_protected_counter(self) -> u32 {
        self.number(USER_PROTECTED_COUNTER)
    }

    pub fn user_data(self) -> &'a [u8] {
        self.counted(USER_DATA, 2, 1)
    }

    pub fn user_protected_data(self) -> &'a [u8] {
        self.counted(USER_PROTECTED_DATA, 2, 1)
    }

    pub fn issuer_data(self) -> &'a [u8] {
        self.counted(ISSUER_DATA, 2, 1)
    }

    pub fn issuer_data_signature(self) -> &'a [u8] {
        self.at(ISSUER_DATA_SIGNATURE)
    }

    pub fn issuer_data_counter(self) -> u32 {
        self.number(ISSUER_DATA_COUNTER)
    }

    /// Since a command last went on, 0 to 60: the next one has to wait so many seconds.
    pub fn wrong_codes(self) -> u32 {
        self.number(WRONG_CODES)
    }

    /// Of the held request, 1 to 120; 0 where none is held.
    pub fn seconds_left(self) -> u32 {
        self.number(SECONDS_LEFT)
    }

    /// The request that has to wait; no bytes where there is none.
    pub fn held_request(self) -> &'a [u8] {
        self.counted(HELD_REQUEST, 2, 1)
    }

    /// 64 bytes each; none without a wallet.
    pub fn last_signatures(self) -> &'a [u8] {
        self.counted(LAST_SIGNATURES, 1, 64)
    }
}

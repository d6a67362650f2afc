//! The thirteen commands as requests: bytes for [`Card::tap`](crate::Card::tap), or for a card in a reader.
//!
//! The codes are those of a card, `&card.codes()`, or one's own. PIN1 and PIN2 are what goes over the air: the SHA-256 of what the user
//! types. `None` leaves a code out.

#[derive(Clone, Debug, Default, PartialEq, Eq)]
pub struct Codes {
    pub cid: Option<Vec<u8>>,
    pub pin1: Option<Vec<u8>>,
    pub pin2: Option<Vec<u8>>,
    pub cvc: Option<Vec<u8>>,
}

/// A request under way: the INS, and the fields so far. What no function below makes can be made of it.
#[derive(Clone, Debug)]
pub struct Request {
    ins: u8,
    payload: Vec<u8>,
}

impl Request {
    pub fn new(ins: u8) -> Request {
        Request { ins, payload: Vec::new() }
    }

    pub fn field(mut self, tag: u8, value: &[u8]) -> Request {
        self.payload.push(tag);
        if value.len() < 0xFF {
            self.payload.push(value.len() as u8);
        } else {
            self.payload.push(0xFF);
            self.payload.extend((value.len() as u16).to_be_bytes());
        }
        self.payload.extend(value);
        self
    }

    fn field_of(self, tag: u8, value: Option<&[u8]>) -> Request {
        match value {
            Some(value) => self.field(tag, value),
            None => self,
        }
    }

    fn counter(self, tag: u8, counter: Option<u32>) -> Request {
        self.field_of(tag, counter.map(u32::to_be_bytes).as_ref().map(|bytes| bytes.as_slice()))
    }

    /// Lc takes one byte where it fits, else three.
    pub fn bytes(self) -> Vec<u8> {
        let length = self.payload.len();
        let lc = if length <= 0xFF { vec![length as u8] } else { vec![0, (length >> 8) as u8, length as u8] };
        [vec![0, self.ins, 0, 0], lc, self.payload].concat()
    }
}

fn with_pin1(ins: u8, codes: &Codes) -> Request {
    Request::new(ins).field_of(0x10, codes.pin1.as_deref())
}

fn with_cid(ins: u8, codes: &Codes) -> Request {
    with_pin1(ins, codes).field_of(0x01, codes.cid.as_deref())
}

fn with_pin2(ins: u8, codes: &Codes) -> Request {
    with_cid(ins, codes).field_of(0x11, codes.pin2.as_deref())
}

fn with_cvc(ins: u8, codes: &Codes) -> Request {
    with_pin2(ins, codes).field_of(0x19, codes.cvc.as_deref())
}

pub fn read_card(codes: &Codes) -> Vec<u8> {
    with_pin1(0xF2, codes).bytes()
}

pub fn create_wallet(codes: &Codes) -> Vec<u8> {
    with_cvc(0xF8, codes).bytes()
}

/// The challenges have 16 bytes each; that for the key may be empty, or absent.
pub fn check_wallet(codes: &Codes, challenge: &[u8], key_challenge: Option<&[u8]>) -> Vec<u8> {
    with_cid(0xF9, codes).field(0x16, challenge).field_of(0x14, key_challenge).bytes()
}

pub fn set_pin(codes: &Codes, new_pin1: &[u8], new_pin2: &[u8]) -> Vec<u8> {
    with_cvc(0xFA, codes).field(0x12, new_pin1).field(0x13, new_pin2).bytes()
}

/// Up to ten hashes.
pub fn sign(codes: &Codes, hashes: &[[u8; 32]]) -> Vec<u8> {
    with_cvc(0xFB, codes).field(0x51, &[32]).field(0x50, &hashes.concat()).bytes()
}

/// SIGN without hashes: the last signatures again.
pub fn sign_again(codes: &Codes) -> Vec<u8> {
    with_cvc(0xFB, codes).bytes()
}

pub fn verify_card(codes: &Codes, challenge: &[u8]) -> Vec<u8> {
    with_cid(0xF3, codes).field(0x16, challenge).bytes()
}

pub fn validate_card(codes: &Codes) -> Vec<u8> {
    with_pin2(0xF4, codes).bytes()
}

pub fn purge_wallet(codes: &Codes) -> Vec<u8> {
    with_pin2(0xFC, codes).bytes()
}

pub fn read_user_data(codes: &Codes) -> Vec<u8> {
    with_cid(0xE1, codes).bytes()
}

pub fn write_user_data(codes: &Codes, data: Option<&[u8]>, counter: Option<u32>) -> Vec<u8> {
    with_cid(0xE0, codes).field_of(0x2A, data).counter(0x2C, counter).bytes()
}

/// WRITE_USER_DATA of what PIN2 protects.
pub fn write_protected_data(codes: &Codes, data: Option<&[u8]>, counter: Option<u32>) -> Vec<u8> {
    with_pin2(0xE0, codes).field_of(0x2B, data).counter(0x2D, counter).bytes()
}

/// The issuer signs CID, data and, on a card with replay protection, counter.
pub fn write_issuer_data(codes: &Codes, data: &[u8], signature: &[u8], counter: Option<u32>) -> Vec<u8> {
    with_cid(0xF6, codes).field(0x32, data).field(0x33, signature).counter(0x35, counter).bytes()
}

pub fn read_issuer_data(codes: &Codes) -> Vec<u8> {
    with_cid(0xF7, codes).bytes()
}

/// The issuer signs CID, Activation_Seed and `reset_pin1`, whether PIN1 becomes that of 000000, as a byte.
pub fn activate_card(codes: &Codes, signature: &[u8], reset_pin1: bool) -> Vec<u8> {
    with_cid(0xFE, codes).field(0x36, &[reset_pin1.into()]).field(0x34, signature).bytes()
}

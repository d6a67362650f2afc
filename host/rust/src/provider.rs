//! What a card borrows: the answers to its questions, and its draws. And one who makes them up.

use crate::calls::DRAW;
use crate::view::{number, Curve};
use std::fs::File;
use std::io::Read;

const HEAD: usize = 6;
const SIGNATURE: usize = 64;
const TRANSACTION: &[u8] = b"transaction";

#[derive(Clone, Copy, Debug, PartialEq, Eq)]
pub enum Kind {
    /// Make a key for this wallet: 65 bytes starting 04, or 32 on ed25519.
    MakeKey,
    /// Sign this hash with the wallet's key: 64 bytes.
    SignHash,
    /// Hash and sign with the wallet's key, SHA-256 on secp256k1 and SHA-512 on ed25519: 64 bytes.
    HashAndSign,
    /// SHA-256 and sign with the card's key: 64 bytes.
    CardSign,
    /// Do the first 64 bytes sign the SHA-256 of the rest under the issuer data key? One byte: 1 yes, 0 no.
    IssuerSigned,
    /// The same under the issuer transaction key. One byte: 1 yes, 0 no.
    IssuerConfirmed,
}

/// One question of a card.
#[derive(Clone, Copy, Debug)]
pub struct Question<'a> {
    pub kind: Kind,
    pub wallet_number: u16,
    pub curve: Curve,
    pub message: &'a [u8],
    pub cid: &'a [u8],
}

pub trait Provider {
    /// The answers, one after the other with nothing between; none where there is no question.
    fn answer(&mut self, questions: &[Question]) -> Vec<u8>;

    /// The draw of a tap: 32 bytes by chance, unless a provider has a reason for others.
    fn draw(&mut self) -> [u8; DRAW] {
        let mut draw = [0; DRAW];
        File::open("/dev/urandom").and_then(|mut source| source.read_exact(&mut draw)).expect("/dev/urandom gives 32 bytes");
        draw
    }
}

pub(crate) fn questions_of<'a>(mut asked: &'a [u8], cid: &'a [u8]) -> Vec<Question<'a>> {
    const KINDS: [Kind; 6] = [Kind::MakeKey, Kind::SignHash, Kind::HashAndSign, Kind::CardSign, Kind::IssuerSigned, Kind::IssuerConfirmed];
    let mut questions = Vec::new();
    while let [kind, high, low, curve, ..] = *asked {
        let end = HEAD + number(&asked[4..HEAD]) as usize;
        let (kind, wallet_number) = (KINDS[kind as usize - 1], u16::from_be_bytes([high, low]));
        questions.push(Question { kind, wallet_number, curve: Curve::of(curve), message: &asked[HEAD..end], cid });
        asked = &asked[end..];
    }
    questions
}

/// Keys and signatures of the right shape that no curve knows. It needs nothing, and is enough where nobody verifies them.
///
/// A key counts upwards from the wallet number. A signature is the message with its bytes summed into 64 places, so that another
/// message mostly has another one. On a confirmation the issuer's key is another: it puts `transaction` behind the message, so that no
/// note passes for one. The draws are the same in every run: 32 times the number of the tap.
#[derive(Clone, Debug, Default)]
pub struct MadeUp {
    taps: u8,
}

impl MadeUp {
    pub fn signature(message: &[u8]) -> Vec<u8> {
        let mut places = vec![0u8; SIGNATURE];
        for (at, byte) in message.iter().enumerate() {
            places[at % SIGNATURE] = places[at % SIGNATURE].wrapping_add(*byte);
        }
        places
    }

    /// The issuer's signature on a note. The counter goes in only on a card with replay protection.
    pub fn issue(cid: &[u8], data: &[u8], counter: Option<u32>) -> Vec<u8> {
        let counter = counter.map_or(Vec::new(), |counter| counter.to_be_bytes().to_vec());
        MadeUp::signature(&[cid, data, &counter].concat())
    }

    /// The issuer's signature on a confirmation.
    pub fn confirm(cid: &[u8], activation_seed: &[u8], reset_pin1: bool) -> Vec<u8> {
        MadeUp::signature(&[cid, activation_seed, &[reset_pin1.into()], TRANSACTION].concat())
    }

    /// Whether the issuer signed the message, under the key that puts this behind it.
    fn signed(question: &Question, key: &[u8]) -> Vec<u8> {
        let (signature, message) = question.message.split_at(SIGNATURE);
        vec![u8::from(MadeUp::signature(&[message, key].concat()) == signature)]
    }

    fn key(wallet_number: u16, curve: Curve) -> Vec<u8> {
        let counted = (0..64).map(|at| wallet_number.wrapping_add(at) as u8);
        match curve {
            Curve::Secp256k1 => std::iter::once(4).chain(counted).collect(),
            Curve::Ed25519 => counted.take(32).collect(),
        }
    }
}

impl Provider for MadeUp {
    fn answer(&mut self, questions: &[Question]) -> Vec<u8> {
        let one = |question: &Question| match question.kind {
            Kind::MakeKey => MadeUp::key(question.wallet_number, question.curve),
            Kind::IssuerSigned => MadeUp::signed(question, b""),
            Kind::IssuerConfirmed => MadeUp::signed(question, TRANSACTION),
            _ => MadeUp::signature(question.message),
        };
        questions.iter().flat_map(one).collect()
    }

    fn draw(&mut self) -> [u8; DRAW] {
        self.taps = self.taps.wrapping_add(1);
        [self.taps; DRAW]
    }
}

//! Why there is no card, or no tap.

use std::fmt;

#[derive(Clone, Copy, Debug, PartialEq, Eq)]
pub enum Error {
    /// The first bad line of a personalisation sheet, from 1; 15 where what follows line 14 is no pause, 16 where something follows that.
    BadSheet(u32),
    /// Number 1 of the library: the image is no card (docs/IMAGE.md).
    NotACard,
    /// Number 4: the provider's answers have not the shape that the questions ask for.
    WrongAnswers,
    /// Numbers 2 and 3, a short buffer or draw. This crate lends enough of both, so that they mean another library than it knows.
    OtherLibrary(u8),
}

const SHEET: [&str; 15] = [
    "cid, a tab and 16 hex digits in capitals",
    "pin1, a tab and 64 hex digits in capitals",
    "pin2, a tab and 64 hex digits in capitals",
    "cvc, a tab and three digits",
    "curve, a tab and secp256k1 or ed25519",
    "max, a tab and a number from 1 to 4294967295 without leading zeros",
    "reusable, a tab and 0 or 1",
    "usecvc, a tab and 0 or 1",
    "setpin1, a tab and 0 or 1",
    "setpin2, a tab and 0 or 1",
    "nopurge, a tab and 0 or 1",
    "replay, a tab and 0 or 1",
    "active, a tab and 0 or 1",
    "seed, a tab and 32 hex digits in capitals",
    "nothing, or pause, a tab and a number from 0 to 60 without leading zeros",
];

impl Error {
    pub(crate) fn of(number: u8) -> Error {
        match number {
            1 => Error::NotACard,
            4 => Error::WrongAnswers,
            other => Error::OtherLibrary(other),
        }
    }
}

impl fmt::Display for Error {
    fn fmt(&self, out: &mut fmt::Formatter) -> fmt::Result {
        match self {
            Error::BadSheet(line) => match SHEET.get(*line as usize - 1) {
                Some(wanted) => write!(out, "line {line} is bad; it has to be {wanted}, ended by a line feed"),
                None => write!(out, "line {line} is bad; it has to be nothing after line {}", SHEET.len()),
            },
            Error::NotACard => write!(out, "the image is no card (docs/IMAGE.md)"),
            Error::WrongAnswers => write!(out, "the provider's answers have not the shape that the questions ask for"),
            Error::OtherLibrary(number) => write!(out, "the library said {number}: it is another than this crate knows"),
        }
    }
}

impl std::error::Error for Error {}

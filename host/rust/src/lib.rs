//! A practice card for the tests of an app: it answers as a card in a reader does, with nothing running.
//!
//! [`Card::from_sheet`] makes a card, [`requests`] has the thirteen commands, [`Card::tap`] sends one, [`Card::view`] tells what the card
//! holds. Where the card makes its holder wait, [`Card::tap_waiting`] does; [`Card::power_off`] takes it out of the field. The cryptography
//! is lent by a [`Provider`]; [`MadeUp`] needs none. `examples/tap.rs` is a whole program.

#![deny(unsafe_code)]

#[allow(unsafe_code)]
mod calls;
mod card;
mod error;
pub mod names;
mod provider;
pub mod requests;
mod response;
mod view;

pub use card::Card;
pub use error::Error;
pub use provider::{Kind, MadeUp, Provider, Question};
pub use requests::Codes;
pub use response::{Field, Response};
pub use view::{Curve, Status, View};

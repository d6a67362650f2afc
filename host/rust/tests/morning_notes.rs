//! What students get wrong, as tests of an app.

use merelstof::requests::{create_wallet, read_issuer_data, sign, sign_again, write_issuer_data};
use merelstof::{Card, Codes, MadeUp, Response};

const SHEET: &str = include_str!("../../examples/secp256k1.sheet");
const CHECKS: [[u8; 32]; 5] = [[1; 32], [2; 32], [3; 32], [4; 32], [5; 32]];

fn card() -> Card<MadeUp> {
    Card::from_sheet(SHEET, MadeUp::default()).unwrap()
}

fn wallet() -> Card<MadeUp> {
    let mut card = card();
    assert!(card.tap(&create_wallet(&card.codes())).unwrap().ok());
    card
}

fn write_note(card: &mut Card<MadeUp>, text: &str, counter: u32) -> Response {
    let signature = MadeUp::issue(card.view().cid(), text.as_bytes(), Some(counter));
    card.tap(&write_issuer_data(&card.codes(), text.as_bytes(), &signature, Some(counter))).unwrap()
}

#[test]
fn a_note_with_a_counter_that_is_not_above_the_stored_one_is_refused() {
    let mut card = card();
    assert_eq!(write_note(&mut card, "06:59 coolant topped up", 709).word, 0x9000);
    assert_eq!(write_note(&mut card, "07:00 LOW OIL PRESSURE 0.8 bar", 700).name, "SW_INVALID_STATUS");
    assert_eq!(card.view().issuer_data(), b"06:59 coolant topped up");
    let stored = card.tap(&read_issuer_data(&card.codes())).unwrap().number("Issuer_Data_Counter").unwrap();
    assert!(write_note(&mut card, "07:00 LOW OIL PRESSURE 0.8 bar", stored + 1).ok());
    assert_eq!(card.view().issuer_data(), b"07:00 LOW OIL PRESSURE 0.8 bar");
}

#[test]
fn five_hashes_cost_one_signature() {
    let mut card = wallet();
    let signed = card.tap(&sign(&card.codes(), &CHECKS)).unwrap();
    assert_eq!(signed.word, 0x9000);
    assert_eq!(signed.field("Signature").unwrap().len(), 5 * 64);
    assert_eq!((card.view().remaining(), card.view().signed_hashes()), (999, 5));
}

#[test]
fn asking_for_the_last_signatures_again_costs_nothing() {
    let mut card = wallet();
    let signed = card.tap(&sign(&card.codes(), &CHECKS)).unwrap();
    let before = card.image().to_vec();
    assert_eq!(card.tap(&sign_again(&card.codes())).unwrap(), signed);
    assert_eq!(card.image(), before);
}

#[test]
fn a_refusal_uses_nothing_up_but_a_wrong_code_costs_a_second() {
    let mut card = wallet();
    card.tap(&sign(&card.codes(), &CHECKS)).unwrap();
    let wrong = Codes { pin2: Some(vec![0; 32]), ..card.codes() };
    let refused = card.tap(&sign(&wrong, &CHECKS)).unwrap();
    assert!(refused.refused() && refused.name == "SW_INVALID_PARAMS");
    assert_eq!((refused.reason, refused.why()), (10, Some("PIN2 or the CVC is absent or is not the card's")));
    assert_eq!((card.view().remaining(), card.view().signed_hashes(), card.view().wrong_codes()), (999, 5, 1));
    let again = sign(&card.codes(), &CHECKS);
    assert_eq!(card.tap(&again).unwrap().seconds_left(), Some(1));
    assert!(card.tap(&again).unwrap().ok());
    assert_eq!((card.view().remaining(), card.view().signed_hashes(), card.view().wrong_codes()), (998, 10, 0));
}

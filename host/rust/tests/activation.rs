//! A card by post: it does next to nothing until the issuer has confirmed it.

use merelstof::requests::{activate_card, create_wallet, read_card, read_issuer_data};
use merelstof::{Card, Codes, MadeUp};

const DEFAULT: &str = "91B4D142823F7D20C5F08DF69122DE43F35F057A988D9619F6D3138485C9A203";

fn posted() -> Card<MadeUp> {
    let sheet = include_str!("../../examples/secp256k1.sheet").replace("active\t1", "active\t0").replace(DEFAULT, &"11".repeat(32));
    Card::from_sheet(&sheet, MadeUp::default()).unwrap()
}

/// What the issuer makes of what READ_CARD tells.
fn confirmation(card: &mut Card<MadeUp>, reset_pin1: bool) -> Vec<u8> {
    let told = card.tap(&read_card(&card.codes())).unwrap();
    assert_eq!(told.field("Is_Activated"), Some(&[0][..]));
    MadeUp::confirm(told.field("CID").unwrap(), told.field("Activation_Seed").unwrap(), reset_pin1)
}

fn hex(bytes: &[u8]) -> String {
    bytes.iter().map(|byte| format!("{byte:02X}")).collect()
}

#[test]
fn a_card_that_is_not_activated_tells_its_seed_and_makes_no_wallet() {
    let mut card = posted();
    let codes = card.codes();
    assert_eq!(
        hex(&card.tap(&read_card(&codes)).unwrap().bytes),
        "0108AA000000000166750201013A01003B1000112233445566778899AABBCCDDEEFF9000"
    );
    assert!(card.tap(&read_issuer_data(&codes)).unwrap().ok());
    let refused = card.tap(&create_wallet(&codes)).unwrap();
    assert_eq!((refused.word, refused.reason), (0x6985, 8));
}

#[test]
fn a_confirmed_card_works_and_its_pin1_is_reset() {
    let mut card = posted();
    let (codes, seed, signature) = (card.codes(), card.view().activation_seed().to_vec(), confirmation(&mut card, true));
    let done = card.tap(&activate_card(&codes, &signature, true)).unwrap();
    assert_eq!((done.word, done.field("Activation_Seed")), (0x9000, None));
    assert_eq!((card.view().activated(), hex(card.view().pin1()), card.view().activation_seed()), (true, DEFAULT.to_string(), &seed[..]));
    assert_eq!(card.tap(&activate_card(&codes, &signature, true)).unwrap().reason, 6);
    assert_eq!(card.tap_waiting(&activate_card(&card.codes(), &signature, true)).unwrap().reason, 12);
    assert!(card.tap(&create_wallet(&card.codes())).unwrap().ok());
}

#[test]
fn pin1_stays_where_the_issuer_says_so() {
    let mut card = posted();
    let (codes, signature) = (card.codes(), confirmation(&mut card, false));
    assert!(card.tap(&activate_card(&codes, &signature, false)).unwrap().ok());
    assert_eq!((card.view().activated(), card.codes()), (true, codes));
}

#[test]
fn what_the_issuer_did_not_sign_changes_nothing_and_can_be_begun_again() {
    let mut card = posted();
    let (codes, before, signature) = (card.codes(), card.image().to_vec(), confirmation(&mut card, true));
    let mut spoilt = signature.clone();
    spoilt[63] ^= 1;
    for (signature, reset_pin1) in [(&spoilt, true), (&signature, false)] {
        let refused = card.tap(&activate_card(&codes, signature, reset_pin1)).unwrap();
        assert_eq!((refused.word, refused.reason, card.image()), (0x6286, 13, &before[..]));
    }
    let without_cid = Codes { cid: None, ..codes.clone() };
    assert_eq!(card.tap(&activate_card(&without_cid, &signature, true)).unwrap().reason, 7);
    assert!(card.tap(&activate_card(&codes, &signature, true)).unwrap().ok());
}

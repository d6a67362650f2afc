//! What is no card, no answer or no request: an error or a refusal, and the card as it was.

use merelstof::requests::{create_wallet, set_pin, verify_card};
use merelstof::{names, Card, Error, MadeUp, Provider, Question};

const SHEET: &str = include_str!("../../examples/secp256k1.sheet");

fn made_of(sheet: &str) -> Option<Error> {
    Card::from_sheet(sheet, MadeUp::default()).err()
}

#[test]
fn a_bad_line_of_a_sheet_is_told_by_its_number() {
    let lines: Vec<&str> = SHEET.split_inclusive('\n').collect();
    for at in 0..lines.len() {
        let mut spoilt = lines.clone();
        let line = lines[at].replace('\t', " ");
        spoilt[at] = &line;
        let error = made_of(&spoilt.concat()).unwrap();
        assert_eq!(error, Error::BadSheet(at as u32 + 1));
        let name = lines[at].split('\t').next().unwrap();
        assert!(error.to_string().starts_with(&format!("line {} is bad; it has to be {name}, a tab and ", at + 1)), "{error}");
    }
    assert_eq!(made_of("").unwrap(), Error::BadSheet(1));
    let from_before_activation = made_of(&lines[..13].concat()).unwrap().to_string();
    assert_eq!(from_before_activation, "line 14 is bad; it has to be seed, a tab and 32 hex digits in capitals, ended by a line feed");
    let after_seed = "nothing, or pause, a tab and a number from 0 to 60 without leading zeros, ended by a line feed";
    for wrong in ["\n", "pause\t61\n", "pause\t05\n", "pause\t\n", "pause\t3", "uid\t00\n"] {
        assert_eq!(made_of(&format!("{SHEET}{wrong}")).unwrap().to_string(), format!("line 15 is bad; it has to be {after_seed}"));
    }
    for wrong in ["\n", "pause\t3\n"] {
        let after_pause = made_of(&format!("{SHEET}pause\t3\n{wrong}")).unwrap();
        assert_eq!(after_pause.to_string(), "line 16 is bad; it has to be nothing after line 15");
    }
}

#[test]
fn what_is_no_card_is_none() {
    let image = Card::from_sheet(SHEET, MadeUp::default()).unwrap().image().to_vec();
    assert!(Card::from_image(&image, MadeUp::default()).is_ok());
    for (offset, wrong) in [
        (96, &[61][..]),      // the pause
        (104, &[0]),          // Status
        (1805, &[61]),        // codes counted
        (1806, &[1]),         // seconds left, and no request
        (1806, &[0, 0, 6]),   // a request, and no seconds left
        (1806, &[121, 0, 6]), // more than any wait
        (1806, &[1, 0, 5]),   // a request that is none
        (1806, &[1, 4, 1]),   // and one of 1,025 bytes
        (1810, &[1]),         // a byte where no request is held
        (2833, &[1; 65]),     // signatures, and no wallet
    ] {
        let mut damaged = image.clone();
        damaged[offset..offset + wrong.len()].copy_from_slice(wrong);
        assert_eq!(Card::from_image(&damaged, MadeUp::default()).err(), Some(Error::NotACard), "{wrong:?} at {offset}");
    }
    let from_before_the_delay = [&image[..96], &image[97..1805], &image[2833..]].concat();
    assert_eq!(from_before_the_delay.len(), 2445);
    for wrong in [&[][..], &image[1..], &from_before_the_delay, &[0; 3474], &[0; 100_000]] {
        assert_eq!(Card::from_image(wrong, MadeUp::default()).err(), Some(Error::NotACard));
    }
}

struct Silent;

impl Provider for Silent {
    fn answer(&mut self, _: &[Question]) -> Vec<u8> {
        Vec::new()
    }
}

#[test]
fn answers_that_do_not_fit_leave_the_card_as_it_was() {
    let mut card = Card::from_sheet(SHEET, Silent).unwrap();
    let before = card.image().to_vec();
    assert_eq!(card.tap(&create_wallet(&card.codes())), Err(Error::WrongAnswers));
    assert_eq!(card.image(), before);
}

#[test]
fn requests_that_are_none_are_refused() {
    let mut card = Card::from_sheet(SHEET, MadeUp::default()).unwrap();
    for wrong in [&[][..], &[0], &[0; 1025], &[0; 100_000]] {
        let response = card.tap(wrong).unwrap();
        assert_eq!((response.word, response.name, response.reason, response.fields.len()), (0x6700, "SW_WRONG_LENGTH", 1, 0));
    }
}

#[test]
fn names_where_there_are_none() {
    assert_eq!((names::command(0), names::tag(0), names::word(0x6F00, 0)), ("?", "?", "?"));
    assert_eq!((names::reason(0), names::reason(14)), ("?", "?"));
    let mut card = Card::from_sheet(SHEET, MadeUp::default()).unwrap();
    let codes = card.codes();
    let same = set_pin(&codes, codes.pin1.as_ref().unwrap(), codes.pin2.as_ref().unwrap());
    assert_eq!(card.tap(&same).unwrap().name, "SW_PINS_NOT_CHANGED");
    let changed = card.tap(&set_pin(&codes, &[1; 32], codes.pin2.as_ref().unwrap())).unwrap();
    assert_eq!((changed.word, changed.name, changed.ok()), (0x9001, "SW_PIN1_CHANGED", true));
    assert_eq!((changed.reason, changed.why()), (0, None));
}

/// VERIFY_CARD tells its salt, the start of the draw: another in each tap, and by chance where the provider leaves it to the trait.
#[test]
fn draws() {
    let mut card = Card::from_sheet(SHEET, MadeUp::default()).unwrap();
    let mut salt = || card.tap(&verify_card(&card.codes(), &[0; 16])).unwrap().field("Salt").unwrap().to_vec();
    assert_eq!((salt(), salt()), (vec![1; 16], vec![2; 16]));
    assert_ne!(Silent.draw(), Silent.draw());
}

//! The security delay: what has to wait, for how long, and what ends it.

use merelstof::requests::{create_wallet, read_card, sign, validate_card};
use merelstof::{Card, Codes, Error, MadeUp, Provider, Question};

const SHEET: &str = include_str!("../../examples/secp256k1.sheet");
const DEFAULT_PIN2: &str = "2AC9A6746ACA543AF8DFF39894CFE8173AFBA21EB01C6FAE33D52947222855EF";

/// Answers as MadeUp does, or with nothing, and counts the taps.
#[derive(Default)]
struct Counting {
    inner: MadeUp,
    silent: bool,
    taps: u32,
}

impl Provider for Counting {
    fn answer(&mut self, questions: &[Question]) -> Vec<u8> {
        self.taps += 1;
        if self.silent {
            Vec::new()
        } else {
            self.inner.answer(questions)
        }
    }
}

fn card(pause: u32) -> Card<Counting> {
    let sheet = format!("{}pause\t{pause}\n", SHEET.replace(DEFAULT_PIN2, &"22".repeat(32)));
    Card::from_sheet(&sheet, Counting::default()).unwrap()
}

/// So many wrong codes.
fn wrong(card: &mut Card<Counting>, times: u32) {
    let codes = Codes { pin2: Some(vec![0; 32]), ..card.codes() };
    for _ in 0..times {
        assert_eq!(card.tap(&create_wallet(&codes)).unwrap().reason, 10);
    }
}

fn held(card: &Card<Counting>) -> (u32, u32, &[u8]) {
    (card.view().wrong_codes(), card.view().seconds_left(), card.view().held_request())
}

#[test]
fn a_pause_of_three_is_over_at_the_fourth_sending() {
    let mut card = card(3);
    let (request, fresh) = (create_wallet(&card.codes()), card.image().to_vec());
    assert_eq!((card.view().pause(), held(&card)), (3, (0, 0, &[][..])));
    for (left, high, low) in [(3, 1, 0x2C), (2, 0, 0xC8), (1, 0, 0x64)] {
        let waits = card.tap(&request).unwrap();
        assert_eq!(waits.bytes, [0x1C, 2, high, low, 0x97, 0x89]);
        assert_eq!((waits.word, waits.name, waits.reason, waits.why()), (0x9789, "SW_NEED_PAUSE", 0, None));
        assert_eq!((waits.paused(), waits.ok(), waits.refused(), waits.seconds_left()), (true, false, false, Some(left)));
        assert_eq!(held(&card), (0, left, &request[..]));
    }
    let done = card.tap(&request).unwrap();
    assert_eq!((done.word, done.paused(), done.seconds_left()), (0x9000, false, None));
    assert_eq!((held(&card), card.view().wallet_number()), ((0, 0, &[][..]), 1));
    assert_ne!(card.image(), fresh);
}

#[test]
fn what_needs_no_pin2_waits_for_wrong_codes_alone() {
    let mut card = card(3);
    let (read, validate) = (read_card(&card.codes()), validate_card(&card.codes()));
    assert!(card.tap(&read).unwrap().ok());
    wrong(&mut card, 2);
    assert_eq!(card.tap(&validate).unwrap().seconds_left(), Some(5));
    assert_eq!(card.tap(&read).unwrap().seconds_left(), Some(2));
    assert_eq!(card.tap_waiting(&read).unwrap().word, 0x9000);
    assert_eq!(held(&card), (0, 0, &[][..]));
    assert_eq!(card.tap(&validate).unwrap().seconds_left(), Some(3));
}

#[test]
fn the_longest_wait_is_over_with_sending_121() {
    let mut card = card(60);
    wrong(&mut card, 61);
    let (request, before) = (create_wallet(&card.codes()), card.provider.taps);
    assert_eq!(held(&card), (60, 0, &[][..]));
    assert_eq!((card.tap_waiting(&request).unwrap().word, card.provider.taps - before), (0x9000, 121));
}

#[test]
fn a_refusal_or_no_wait_is_one_sending() {
    let mut card = card(0);
    let codes = card.codes();
    for (request, word) in [(sign(&codes, &[[1; 32]]), 0x6985), (create_wallet(&codes), 0x9000), (create_wallet(&codes), 0x6985)] {
        assert_eq!(card.tap_waiting(&request).unwrap().word, word);
    }
    assert_eq!(card.provider.taps, 3);
}

#[test]
fn a_power_off_forgets_the_request_and_not_the_codes() {
    let mut card = card(3);
    wrong(&mut card, 2);
    let (request, before) = (create_wallet(&card.codes()), card.image().to_vec());
    for left in [5, 4, 3] {
        assert_eq!(card.tap(&request).unwrap().seconds_left(), Some(left));
    }
    for _ in 0..2 {
        card.power_off().unwrap();
        assert_eq!(card.image(), before);
    }
    assert_eq!(card.tap(&request).unwrap().seconds_left(), Some(5));
}

#[test]
fn other_bytes_begin_anew() {
    let mut card = card(3);
    let (request, read) = (create_wallet(&card.codes()), read_card(&card.codes()));
    assert_eq!(card.tap(&request).unwrap().seconds_left(), Some(3));
    assert_eq!(card.tap(&request).unwrap().seconds_left(), Some(2));
    assert!(card.tap(&read).unwrap().ok());
    assert_eq!(held(&card), (0, 0, &[][..]));
    assert_eq!(card.tap(&request).unwrap().seconds_left(), Some(3));
}

#[test]
fn a_default_pin2_that_is_wrong_costs_nothing() {
    let mut card = card(0);
    let default: Vec<u8> = (0..32).map(|at| u8::from_str_radix(&DEFAULT_PIN2[2 * at..2 * at + 2], 16).unwrap()).collect();
    let (fresh, codes) = (card.image().to_vec(), Codes { pin2: Some(default), ..card.codes() });
    assert_eq!((card.tap(&create_wallet(&codes)).unwrap().reason, card.image()), (10, &fresh[..]));
}

#[test]
fn answers_that_do_not_fit_take_no_second_back() {
    let mut card = card(1);
    card.provider.silent = true;
    let request = create_wallet(&card.codes());
    assert_eq!(card.tap_waiting(&request), Err(Error::WrongAnswers));
    assert_eq!((held(&card), card.provider.taps), ((0, 1, &request[..]), 2));
    card.provider.silent = false;
    assert!(card.tap(&request).unwrap().ok());
}

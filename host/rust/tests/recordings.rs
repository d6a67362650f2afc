//! Recordings played by the crate: each tap gets the response that was recorded. Those of lessons/, or of the folder that
//! MERELSTOF_RECORDINGS names. No recording has reasons: there they stand beside it in NAME.reasons, a line for each tap.

use merelstof::{Card, Error, Provider, Question};
use std::path::Path;
use std::{env, fs};

const SHEET_LINES: usize = 14; // and one more where it has a pause

/// Draw and answers of the tap under way, as the recording has them.
#[derive(Default)]
struct Recorded {
    draw: [u8; 32],
    answers: Vec<u8>,
}

impl Provider for Recorded {
    fn answer(&mut self, _: &[Question]) -> Vec<u8> {
        self.answers.clone()
    }

    fn draw(&mut self) -> [u8; 32] {
        self.draw
    }
}

fn bytes(hex: &str) -> Vec<u8> {
    (0..hex.len()).step_by(2).map(|at| u8::from_str_radix(&hex[at..at + 2], 16).unwrap()).collect()
}

fn hex(bytes: &[u8]) -> String {
    bytes.iter().map(|byte| format!("{byte:02X}")).collect()
}

/// How many taps there were, and of how many the reason was compared.
fn play(path: &Path) -> (usize, usize) {
    let (recording, reasons) = (fs::read_to_string(path).unwrap(), fs::read_to_string(path.with_extension("reasons")).unwrap_or_default());
    let lines: Vec<&str> = recording.split_inclusive('\n').collect();
    let mut reasons = reasons.lines();
    let mut compared = 0;
    let taps = SHEET_LINES + usize::from(lines.get(SHEET_LINES).map_or(false, |line| line.starts_with("pause")));
    let mut card = Card::from_sheet(&lines[..taps].concat(), Recorded::default()).unwrap();
    for line in &lines[taps..] {
        let fields: Vec<&str> = line.trim_end_matches('\n').split('\t').collect();
        card.provider = Recorded { draw: bytes(fields[1]).try_into().unwrap(), answers: bytes(fields[2]) };
        let before = card.image().to_vec();
        let (got, reason) = match card.tap(&bytes(fields[0])) {
            Ok(response) => {
                let (refused, paused) = (response.reason != 0, response.bytes.ends_with(&[0x97, 0x89]));
                assert_eq!((response.refused(), response.why().is_some(), response.paused()), (refused, refused, paused), "{line}");
                assert_eq!((response.ok(), response.seconds_left().is_some()), (!refused && !paused, paused), "{line}");
                (hex(&response.bytes), response.reason)
            }
            Err(why) => {
                assert_eq!((why, card.image()), (Error::WrongAnswers, before.as_slice()));
                ("4".to_string(), 0)
            }
        };
        assert_eq!(got, fields[3], "{line}");
        if let Some(expected) = reasons.next() {
            assert_eq!(reason.to_string(), expected, "{line}");
            compared += 1;
        }
    }
    (lines.len() - taps, compared)
}

#[test]
fn every_tap_gets_the_response_that_was_recorded() {
    let folder = env::var("MERELSTOF_RECORDINGS").unwrap_or(concat!(env!("CARGO_MANIFEST_DIR"), "/../../lessons").to_string());
    let paths = fs::read_dir(folder).unwrap().map(|entry| entry.unwrap().path());
    let recordings: Vec<_> = paths.filter(|path| path.extension().map_or(false, |end| end == "rec")).collect();
    let (taps, compared) = recordings.iter().map(|path| play(path)).fold((0, 0), |sum, one| (sum.0 + one.0, sum.1 + one.1));
    println!("{taps} taps of {} recordings, {compared} reasons", recordings.len());
    assert!(taps >= 60);
}

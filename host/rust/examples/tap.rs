//! From a sheet on standard input a card, a wallet on it, and five hashes signed at the cost of one signature.

use merelstof::requests::{create_wallet, sign};
use merelstof::{Card, Error, MadeUp, Response};
use std::io::Read;

fn five_hashes(sheet: &str) -> Result<(Card<MadeUp>, Response), Error> {
    let mut card = Card::from_sheet(sheet, MadeUp::default())?;
    let codes = card.codes();
    card.tap_waiting(&create_wallet(&codes))?;
    let signed = card.tap_waiting(&sign(&codes, &[[1; 32], [2; 32], [3; 32], [4; 32], [5; 32]]))?;
    Ok((card, signed))
}

fn main() {
    let mut sheet = String::new();
    std::io::stdin().read_to_string(&mut sheet).expect("a text on standard input");
    match five_hashes(&sheet) {
        Ok((card, signed)) => {
            println!("{:04X} {}", signed.word, signed.name);
            if let Some(why) = signed.why() {
                println!("refused by check {}: {why}", signed.reason);
            }
            for field in &signed.fields {
                println!("{:02X} {} {}", field.tag, field.name, hex(&field.value));
            }
            println!("{:?}, Remaining {}, Signed_Hashes {}", card.view().status(), card.view().remaining(), card.view().signed_hashes());
        }
        Err(why) => {
            eprintln!("tap: {why}");
            std::process::exit(1);
        }
    }
}

fn hex(bytes: &[u8]) -> String {
    bytes.iter().map(|byte| format!("{byte:02X}")).collect()
}

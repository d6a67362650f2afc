//! What card files hold: each image on standard input, by the names of its values.

use merelstof::{Card, MadeUp};
use std::io::Read;

const IMAGE: usize = 3474;

fn main() {
    let mut images = Vec::new();
    std::io::stdin().read_to_end(&mut images).expect("images on standard input");
    for image in images.chunks(IMAGE) {
        match Card::from_image(image, MadeUp::default()) {
            Ok(card) => show(&card),
            Err(why) => println!("{why}"),
        }
    }
}

fn show(card: &Card<MadeUp>) {
    let view = card.view();
    println!("pin1 {}", hex(view.pin1()));
    println!("pin2 {}", hex(view.pin2()));
    println!("cid {}", hex(view.cid()));
    println!("cvc {}", hex(view.cvc()));
    println!("curve {:?}", view.curve());
    println!("max_signatures {}", view.max_signatures());
    println!("activation_seed {}", hex(view.activation_seed()));
    println!("pause {}", view.pause());
    println!("reusable {}", view.reusable());
    println!("cvc_used {}", view.cvc_used());
    println!("pin1_may_change {}", view.pin1_may_change());
    println!("pin2_may_change {}", view.pin2_may_change());
    println!("purge_prohibited {}", view.purge_prohibited());
    println!("replay_protection {}", view.replay_protection());
    println!("activated {}", view.activated());
    println!("status {:?}", view.status());
    println!("wallet_number {}", view.wallet_number());
    println!("remaining {}", view.remaining());
    println!("signed_hashes {}", view.signed_hashes());
    println!("wallet_public_key {}", hex(view.wallet_public_key()));
    println!("check_wallet_counter {}", view.check_wallet_counter());
    println!("card_validation_counter {}", view.card_validation_counter());
    println!("user_counter {}", view.user_counter());
    println!("user_protected_counter {}", view.user_protected_counter());
    println!("user_data {}", hex(view.user_data()));
    println!("user_protected_data {}", hex(view.user_protected_data()));
    println!("issuer_data {}", hex(view.issuer_data()));
    println!("issuer_data_signature {}", hex(view.issuer_data_signature()));
    println!("issuer_data_counter {}", view.issuer_data_counter());
    println!("wrong_codes {}", view.wrong_codes());
    println!("seconds_left {}", view.seconds_left());
    println!("held_request {}", hex(view.held_request()));
    println!("last_signatures {}", hex(view.last_signatures()));
}

fn hex(bytes: &[u8]) -> String {
    bytes.iter().map(|byte| format!("{byte:02X}")).collect()
}

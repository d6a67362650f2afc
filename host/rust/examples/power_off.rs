//! Cards that leave the field: each image on standard input, and on standard output the image that a power-off leaves.

use merelstof::{Card, Error, MadeUp};
use std::io::{Read, Write};

const IMAGE: usize = 3474;

fn without_power(image: &[u8]) -> Result<Vec<u8>, Error> {
    let mut card = Card::from_image(image, MadeUp::default())?;
    card.power_off()?;
    Ok(card.image().to_vec())
}

fn main() {
    let mut images = Vec::new();
    std::io::stdin().read_to_end(&mut images).expect("images on standard input");
    for image in images.chunks(IMAGE) {
        match without_power(image) {
            Ok(left) => std::io::stdout().write_all(&left).expect("room on standard output"),
            Err(why) => {
                eprintln!("power_off: {why}");
                std::process::exit(1);
            }
        }
    }
}

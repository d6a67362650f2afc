//! What a provider is asked, kind by kind, by hand.

use merelstof::requests::{activate_card, check_wallet, create_wallet, sign, verify_card, write_issuer_data};
use merelstof::{Card, Curve, Kind, MadeUp, Provider, Question};

type Asked = (Kind, u16, Curve, Vec<u8>, Vec<u8>);

/// Answers as MadeUp does, and keeps what was asked in the last tap.
#[derive(Default)]
struct Keeping {
    inner: MadeUp,
    asked: Vec<Asked>,
}

impl Provider for Keeping {
    fn answer(&mut self, questions: &[Question]) -> Vec<u8> {
        self.asked = questions.iter().map(|q| (q.kind, q.wallet_number, q.curve, q.message.to_vec(), q.cid.to_vec())).collect();
        self.inner.answer(questions)
    }

    fn draw(&mut self) -> [u8; 32] {
        [0xDD; 32]
    }
}

/// The card of a sheet whose last wallet was number 257.
fn card(sheet: &str) -> Card<Keeping> {
    let mut image = Card::from_sheet(sheet, MadeUp::default()).unwrap().image().to_vec();
    image[105..107].copy_from_slice(&[1, 1]);
    Card::from_image(&image, Keeping::default()).unwrap()
}

fn asked(card: &mut Card<Keeping>, request: Vec<u8>) -> Vec<Asked> {
    assert!(card.tap(&request).unwrap().ok());
    std::mem::take(&mut card.provider.asked)
}

#[test]
fn each_kind_of_question() {
    for (sheet, curve, cid) in [
        (include_str!("../../examples/secp256k1.sheet"), Curve::Secp256k1, [0xAA, 0, 0, 0, 0, 1, 0x66, 0x75]),
        (include_str!("../../examples/ed25519.sheet"), Curve::Ed25519, [0xAA, 0, 0, 0, 0, 1, 0x66, 0x83]),
    ] {
        let mut card = card(sheet);
        let codes = card.codes();
        let one = |kind, message: &[u8]| (kind, 258, curve, message.to_vec(), cid.to_vec());
        assert_eq!(asked(&mut card, create_wallet(&codes)), [one(Kind::MakeKey, b"")]);
        let hashes = [[1; 32], [2; 32]];
        assert_eq!(asked(&mut card, sign(&codes, &hashes)), [one(Kind::SignHash, &[1; 32]), one(Kind::SignHash, &[2; 32])]);
        let (challenge, salt) = ([0xC0; 16], [0xDD; 16]);
        let both = [challenge, salt].concat();
        assert_eq!(asked(&mut card, check_wallet(&codes, &challenge, None)), [one(Kind::HashAndSign, &both)]);
        let verified = asked(&mut card, verify_card(&codes, &challenge));
        assert_eq!((verified.len(), verified[0].0, verified[0].1), (1, Kind::CardSign, 258));
        let note = [&cid[..], b"OK", &[0, 0, 0, 9]].concat();
        let signature = MadeUp::issue(&cid, b"OK", Some(9));
        let written = asked(&mut card, write_issuer_data(&codes, b"OK", &signature, Some(9)));
        assert_eq!(written, [one(Kind::IssuerSigned, &[signature, note].concat())]);
    }
}

/// The signature, then CID, Activation_Seed and Reset_PIN1, as the card holds them and was sent them.
#[test]
fn whether_the_issuer_confirmed() {
    let sheet = include_str!("../../examples/secp256k1.sheet").replace("active\t1", "active\t0");
    let mut card = Card::from_sheet(&sheet, Keeping::default()).unwrap();
    let cid = [0xAA, 0, 0, 0, 0, 1, 0x66, 0x75];
    let seed = [0x00, 0x11, 0x22, 0x33, 0x44, 0x55, 0x66, 0x77, 0x88, 0x99, 0xAA, 0xBB, 0xCC, 0xDD, 0xEE, 0xFF];
    let signature = MadeUp::confirm(&cid, &seed, true);
    let codes = card.codes();
    let message = [&signature[..], &cid, &seed, &[1]].concat();
    let expected = [(Kind::IssuerConfirmed, 0, Curve::Secp256k1, message, cid.to_vec())];
    assert_eq!(asked(&mut card, activate_card(&codes, &signature, true)), expected);
}

//! The made-up provider, by hand: what each kind of question gets.

use merelstof::{Curve, Kind, MadeUp, Provider, Question};

fn answer(kind: Kind, wallet_number: u16, curve: Curve, message: &[u8]) -> Vec<u8> {
    MadeUp::default().answer(&[Question { kind, wallet_number, curve, message, cid: b"12345678" }])
}

#[test]
fn keys_count_upwards_from_the_wallet_number() {
    let counted: Vec<u8> = (1..=64).collect();
    assert_eq!(answer(Kind::MakeKey, 1, Curve::Secp256k1, b""), [vec![4], counted].concat());
    assert_eq!(answer(Kind::MakeKey, 2, Curve::Ed25519, b""), (2..34).collect::<Vec<u8>>());
    assert_eq!(answer(Kind::MakeKey, 65535, Curve::Secp256k1, b"")[..4], [4, 255, 0, 1]);
}

#[test]
fn a_signature_is_the_message_summed_into_64_places() {
    let hash: Vec<u8> = (0..32).collect();
    for kind in [Kind::SignHash, Kind::HashAndSign, Kind::CardSign] {
        assert_eq!(answer(kind, 1, Curve::Ed25519, &hash), [hash.clone(), vec![0; 32]].concat());
    }
    let long = [vec![255], vec![0; 63], vec![3]].concat();
    assert_eq!(answer(Kind::HashAndSign, 1, Curve::Ed25519, &long), [vec![2], vec![0; 63]].concat());
}

#[test]
fn the_issuer_signs_one_note() {
    let signature = MadeUp::issue(b"12345678", b"text", Some(9));
    assert_eq!(signature, [b"12345678text\0\0\0\x09".to_vec(), vec![0; 48]].concat());
    let asked = |message: &[u8]| answer(Kind::IssuerSigned, 1, Curve::Secp256k1, &[&signature, message].concat());
    assert_eq!((asked(b"12345678text\0\0\0\x09"), asked(b"12345678text\0\0\0\x0a")), (vec![1], vec![0]));
    assert_eq!(MadeUp::issue(b"12345678", b"text", None)[..16], *b"12345678text\0\0\0\0");
}

#[test]
fn the_issuer_confirms_one_activation() {
    let signature = MadeUp::confirm(b"12345678", b"sixteen  letters", true);
    assert_eq!(signature, [b"12345678sixteen  letters\x01transaction".to_vec(), vec![0; 28]].concat());
    let asked = |message: &[u8]| answer(Kind::IssuerConfirmed, 0, Curve::Secp256k1, &[&signature, message].concat());
    assert_eq!((asked(b"12345678sixteen  letters\x01"), asked(b"12345678sixteen  letters\0")), (vec![1], vec![0]));
}

#[test]
fn no_note_passes_for_a_confirmation_and_no_confirmation_for_a_note() {
    let message = b"12345678sixteen  letters\x01";
    let note = MadeUp::issue(b"12345678", b"sixteen  letters\x01", None);
    let confirmation = MadeUp::confirm(b"12345678", b"sixteen  letters", true);
    for (signature, signed, confirmed) in [(note, 1, 0), (confirmation, 0, 1)] {
        let asked = |kind| answer(kind, 0, Curve::Secp256k1, &[&signature[..], message].concat());
        assert_eq!((asked(Kind::IssuerSigned), asked(Kind::IssuerConfirmed)), (vec![signed], vec![confirmed]));
    }
}

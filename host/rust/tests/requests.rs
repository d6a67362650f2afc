//! The thirteen commands, each as its bytes by hand.

use merelstof::requests::*;
use merelstof::{names, Card, Codes, MadeUp};

const CID: &str = "0108AA00000000016675";

fn codes() -> Codes {
    Codes {
        cid: Some(vec![0xAA, 0, 0, 0, 0, 1, 0x66, 0x75]),
        pin1: Some(vec![0x11; 32]),
        pin2: Some(vec![0x22; 32]),
        cvc: Some(b"123".to_vec()),
    }
}

fn hex(bytes: &[u8]) -> String {
    bytes.iter().map(|byte| format!("{byte:02X}")).collect()
}

/// The header and the payload's fields, in which `P1`, `CID` and so on stand for those of the codes above.
fn by_hand(head: &str, fields: &str) -> String {
    let expand = |field: &str| match field {
        "P1" => format!("1020{}", "11".repeat(32)),
        "CID" => CID.to_string(),
        "P2" => format!("1120{}", "22".repeat(32)),
        "CVC" => "1903313233".to_string(),
        other => other.to_string(),
    };
    let payload: String = fields.split(' ').map(expand).collect();
    format!("{head}{payload}")
}

#[test]
fn each_command_has_the_bytes_of_the_paper() {
    let (c, sixteen) = (codes(), "A0".repeat(16));
    let challenge = format!("1610{sixteen}");
    for (made, head, fields) in [
        (read_card(&c), "00F2000022", "P1".to_string()),
        (create_wallet(&c), "00F8000053", "P1 CID P2 CVC".to_string()),
        (check_wallet(&c, &[0xA0; 16], None), "00F900003E", format!("P1 CID {challenge}")),
        (check_wallet(&c, &[0xA0; 16], Some(&[])), "00F9000040", format!("P1 CID {challenge} 1400")),
        (set_pin(&c, &[1; 32], &[2; 32]), "00FA000097", format!("P1 CID P2 CVC 1220{} 1320{}", "01".repeat(32), "02".repeat(32))),
        (sign(&c, &[[1; 32], [2; 32]]), "00FB000098", format!("P1 CID P2 CVC 510120 5040{}{}", "01".repeat(32), "02".repeat(32))),
        (sign_again(&c), "00FB000053", "P1 CID P2 CVC".to_string()),
        (sign(&c, &[[7; 32]; 8]), "00FB000000015A", format!("P1 CID P2 CVC 510120 50FF0100{}", "07".repeat(256))),
        (verify_card(&c, &[0xA0; 16]), "00F300003E", format!("P1 CID {challenge}")),
        (validate_card(&c), "00F400004E", "P1 CID P2".to_string()),
        (purge_wallet(&c), "00FC00004E", "P1 CID P2".to_string()),
        (read_user_data(&c), "00E100002C", "P1 CID".to_string()),
        (write_user_data(&c, Some(b"abc"), Some(7)), "00E0000037", "P1 CID 2A03616263 2C0400000007".to_string()),
        (write_user_data(&c, Some(&[7; 209]), None), "00E00000FF", format!("P1 CID 2AD1{}", "07".repeat(209))),
        (write_user_data(&c, Some(&[7; 210]), None), "00E00000000100", format!("P1 CID 2AD2{}", "07".repeat(210))),
        (write_user_data(&c, Some(&[7; 254]), None), "00E0000000012C", format!("P1 CID 2AFE{}", "07".repeat(254))),
        (write_user_data(&c, Some(&[7; 255]), None), "00E0000000012F", format!("P1 CID 2AFF00FF{}", "07".repeat(255))),
        (write_user_data(&c, None, Some(7)), "00E0000032", "P1 CID 2C0400000007".to_string()),
        (write_protected_data(&c, Some(b"de"), Some(8)), "00E0000058", "P1 CID P2 2B026465 2D0400000008".to_string()),
        (write_issuer_data(&c, b"OK", &[0x99; 64], Some(9)), "00F6000078", format!("P1 CID 32024F4B 3340{} 350400000009", "99".repeat(64))),
        (write_issuer_data(&c, b"OK", &[0x99; 64], None), "00F6000072", format!("P1 CID 32024F4B 3340{}", "99".repeat(64))),
        (read_issuer_data(&c), "00F700002C", "P1 CID".to_string()),
        (activate_card(&c, &[0x34; 64], false), "00FE000071", format!("P1 CID 360100 3440{}", "34".repeat(64))),
        (activate_card(&c, &[0x34; 64], true), "00FE000071", format!("P1 CID 360101 3440{}", "34".repeat(64))),
    ] {
        assert_eq!(hex(&made), by_hand(head, &fields), "{}", names::command(made[1]));
    }
}

#[test]
fn a_card_s_own_codes() {
    let sheet = include_str!("../../examples/secp256k1.sheet");
    let card = Card::from_sheet(sheet, MadeUp::default()).unwrap();
    assert_eq!(hex(&read_card(&card.codes())), "00F2000022102091B4D142823F7D20C5F08DF69122DE43F35F057A988D9619F6D3138485C9A203");
    assert_eq!(card.codes().cvc, None);
    let with_cvc = Card::from_sheet(&sheet.replace("usecvc\t0", "usecvc\t1"), MadeUp::default()).unwrap();
    assert_eq!(with_cvc.codes().cvc, Some(b"123".to_vec()));
    assert_eq!(read_card(&Codes::default()), [0, 0xF2, 0, 0, 0]);
}

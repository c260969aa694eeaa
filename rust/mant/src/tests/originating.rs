use super::*;

#[test]
fn the_example_is_originated() {
    let mut output = [0xAA; 21];
    assert_eq!(originate(&fresh(), &PAYLOAD, &mut output), Ok(20));
    assert_eq!((&output[..20], output[20]), (&example()[..], 0xAA));
    let above = Fresh {
        hop_limit: 263,
        ..fresh()
    };
    let refused = originate(&above, &PAYLOAD, &mut output);
    assert_eq!(refused, Err(Refusal::HopLimitAbove7));
}

#[test]
fn the_flag_is_set_under_1_2() {
    let mut output = [0; 21];
    let encrypted = Fresh {
        encrypted: true,
        ..fresh()
    };
    assert_eq!(originate(&encrypted, &PAYLOAD, &mut output), Ok(20));
    assert_eq!((output[0], output[1]), (0x03, 0x08));
    let under_1_1 = Fresh {
        edition: EDITION_1_1,
        ..encrypted
    };
    let refused = originate(&under_1_1, &PAYLOAD, &mut []);
    assert_eq!(refused, Err(Refusal::NoEncryptedFlag));
}

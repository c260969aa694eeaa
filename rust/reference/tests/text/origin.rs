//! 01, "Origination".

use crate::ASKED;
use reference::*;

/// 01, "Numbers answered": origination checks 10 to 14 in that order.
#[test]
fn origination_in_order() {
    let mut settings = Origination {
        reliable: true,
        time_stamp_request: true,
        port: 256,
        hop: 263,
        source: 1,
        pdu_id: 0x99,
        ..ASKED
    };
    let mut out = [0xAA; 10];
    assert_eq!(originate(&settings, &[0; 4096], &mut out), (10, 0));
    settings.hop = 7;
    assert_eq!(originate(&settings, &[0; 4096], &mut out), (11, 0));
    settings.port = 15;
    assert_eq!(originate(&settings, &[0; 4096], &mut out), (12, 0));
    assert_eq!(originate(&settings, &[3; 2], &mut out), (13, 0));
    settings.destination = Some(0x0203);
    assert_eq!(originate(&settings, &[3; 2], &mut out), (14, 0));
    assert_eq!(out, [0xAA; 10]);
    let wanted = [0x0D, 0xF0, 0x70, 1, 0, 1, 2, 3, 0x99, 3];
    assert_eq!(originate(&settings, &[3], &mut out), (0, 10));
    assert_eq!(out, wanted);
}

/// 01, "Origination": the PDU ID is written for reliable service only.
#[test]
fn best_efforts_has_no_pdu_id() {
    let settings = Origination {
        path: true,
        port: 1,
        hop: 2,
        source: 3,
        pdu_id: 0x99,
        ..ASKED
    };
    let mut out = [0xAA; 8];
    assert_eq!(originate(&settings, &[], &mut out), (0, 7));
    assert_eq!(out, [0x02, 0x10, 0x20, 0, 0, 3, 0, 0xAA]);
}

//! 01, "Checked by hand": P1 to P14, the printed example of `relay`, and the
//! cases without a P.

use crate::{bytes, node, ASKED};
use reference::*;

/// The example of document 002, the first PDU of 01's job.
const EXAMPLE: &str = "0300100B03E8064000 7001081212032413220276";
/// P8's output, as 01 prints it.
const REPEATED: &str = "0300000B03E806400107D07001081212032413220276";
/// The job of 01.
const JOB: &str = "07D0 03 00 00 00 00 001A
    0300100B03E8064000 7001081212032413220276
    000000000005";
/// What the job prints, whole.
const PRINTED: &str = "relay 2000
1 0 39 0 0300000B03E806400107D07001081212032413220276 1000
2 20 0 37 - -
end 2 26
";

fn starting(first: u8) -> Vec<u8> {
    vec![first, 0, 0, 0, 0, 0]
}

/// Delivery number, repeat number and the repeated PDU, with ample room.
fn heard(settings: &Settings, received: &[u8]) -> (u8, u8, Vec<u8>) {
    let mut out = [0; MOST_PDU];
    let answer = hear(settings, &Lists::EMPTY, received, &mut out);
    let repeated = out[..answer.repeated_length].to_vec();
    (answer.delivery, answer.repeat, repeated)
}

fn origination(hop: u64) -> Origination {
    Origination {
        path: true,
        hop,
        source: 1000,
        destination: Some(1600),
        pdu_id: 9,
        ..ASKED
    }
}

/// A PDU with a path of so many entries and no payload, from node 5.
fn with_path(count: u8) -> Vec<u8> {
    let mut pdu = bytes("020010000005");
    pdu.push(count);
    pdu.resize(7 + 2 * usize::from(count), 0xEE);
    pdu
}

#[test]
fn p1_five_bytes() {
    assert_eq!(read(&[0; 5]), Err(1));
}

#[test]
fn p2_six_bytes() {
    let received = bytes("000000000005");
    let header = read(&received).unwrap();
    assert_eq!(header.source, 5);
    assert_eq!(header.payload(&received), &[] as &[u8]);
}

#[test]
fn p3_version() {
    assert_eq!(read(&starting(0x40)), Err(2));
}

#[test]
fn p4_protocol() {
    assert_eq!(read(&starting(0x10)), Err(3));
}

#[test]
fn p5_reliable_without_destination() {
    assert_eq!(read(&starting(0x08)), Err(4));
}

#[test]
fn p6_destination_past_end() {
    assert_eq!(read(&starting(0x01)), Err(5));
}

#[test]
fn p7_payload_past_end() {
    assert_eq!(read(&bytes("000000010005")), Err(6));
}

#[test]
fn p8_example_at_node_2000() {
    let answer = heard(&node(2000), &bytes(EXAMPLE));
    assert_eq!(answer, (39, 0, bytes(REPEATED)));
}

#[test]
fn p9_example_at_its_destination() {
    let received = bytes(EXAMPLE);
    let mut out = [0xAA; MOST_PDU];
    let answer = hear(&node(1600), &Lists::EMPTY, &received, &mut out);
    assert_eq!((answer.delivery, answer.repeat), (0, 41));
    assert_eq!(answer.delivered, (9, 11));
    assert_eq!(out, [0xAA; MOST_PDU]);
}

#[test]
fn p10_echo_before_hop_limit() {
    let answer = heard(&node(2000), &bytes(REPEATED));
    assert_eq!(answer, (30, 30, vec![]));
}

#[test]
fn p11_echo_off() {
    let settings = Settings {
        echo: false,
        ..node(2000)
    };
    let answer = heard(&settings, &bytes(REPEATED));
    assert_eq!(answer, (39, 37, vec![]));
}

#[test]
fn p12_hop_7_kept() {
    let mut received = bytes(EXAMPLE);
    received[2] = 0x70;
    let mut repeated = bytes(REPEATED);
    repeated[2] = 0x70;
    assert_eq!(heard(&node(2000), &received), (39, 0, repeated));
}

#[test]
fn p13_hop_setting() {
    let mut out = [0xAA; 20];
    assert_eq!(originate(&origination(15), &[], &mut out), (10, 0));
    assert_eq!(out, [0xAA; 20]);
    assert_eq!(originate(&origination(7), &[], &mut out), (0, 9));
    assert_eq!(out[..9], bytes("0300700003E8064000"));
    assert_eq!(out[9..], [0xAA; 11]);
}

#[test]
fn p14_empty_source_pass_list() {
    let settings = Settings {
        source_pass: Choice::First,
        ..node(2000)
    };
    assert_eq!(heard(&settings, &bytes(EXAMPLE)), (31, 31, vec![]));
}

#[test]
fn the_job_prints_what_01_prints() {
    assert_eq!(relay(&bytes(JOB)), PRINTED);
}

#[test]
fn path_of_254_is_repeated_and_255_is_not() {
    let (delivery, repeat, repeated) = heard(&node(7), &with_path(254));
    assert_eq!((delivery, repeat, repeated.len()), (0, 0, 7 + 510));
    assert_eq!((repeated[6], &repeated[515..]), (255, &[0, 7][..]));
    assert_eq!(heard(&node(7), &with_path(255)), (0, 38, vec![]));
}

#[test]
fn payload_of_4095_is_taken_and_4096_is_not() {
    let mut out = [0; 5000];
    let done = originate(&origination(1), &[1; 4095], &mut out);
    assert_eq!(done, (0, 9 + 4095));
    assert_eq!(originate(&origination(1), &[1; 4096], &mut out), (12, 0));
}

#[test]
fn the_bound() {
    assert_eq!(bound(3, 2), Some(10));
    assert_eq!(bound(3, 6), Some(16));
    assert_eq!(bound(3, 7), Some(16));
    for number in 0..300 {
        assert_eq!(bound(number, 0), Some(1));
    }
    for hop in 0..=7 {
        assert_eq!(bound(0, hop), Some(1));
    }
}

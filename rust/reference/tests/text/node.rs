//! 01, "One PDU at one node"; 02, W-205.

use crate::{node, FULL};
use reference::*;

fn numbers(settings: &Settings, lists: &Lists, received: &[u8]) -> (u8, u8) {
    let answer = hear(settings, lists, received, &mut [0; MOST_PDU]);
    (answer.delivery, answer.repeat)
}

/// 01, "One PDU at one node", 1: source pass first; in each 22, 21, then 20.
#[test]
fn list_faults_in_order() {
    let long_and_odd = [9; 129];
    let odd_and_low_above_high = [2, 1, 5];
    let low_above_high = [1, 1, 2, 1];
    let good = [9; 128];
    let fault = |lists: [&[u16]; 4]| {
        let fault = list_fault(&Lists::firsts(lists))?;
        Some((fault.number, fault.list))
    };
    assert_eq!(fault([&good, &good, &good, &long_and_odd]), Some((22, 6)));
    assert_eq!(
        fault([&[], &odd_and_low_above_high, &long_and_odd, &[]]),
        Some((21, 2))
    );
    assert_eq!(
        fault([&low_above_high, &long_and_odd, &[], &[1]]),
        Some((20, 0))
    );
    assert_eq!(fault([&good, &[0, 65535], &[], &good]), None);
}

/// Lists come before reading, and are checked though they are off.
#[test]
fn list_fault_before_reading() {
    let lists = Lists::firsts([&[], &[], &[], &[1]]);
    assert_eq!(numbers(&node(1), &lists, &[]), (21, 21));
    assert_eq!(numbers(&node(1), &Lists::EMPTY, &[]), (1, 1));
}

/// 01, "Slips to rule out": the PDU's source is tested, not the own address.
#[test]
fn lists_look_at_the_pdu() {
    let mut settings = node(7);
    settings.source_pass = Choice::First;
    let own = Lists::firsts([&[7, 7], &[], &[], &[]]);
    let source = Lists::firsts([&[0x1234, 0x1234], &[], &[], &[]]);
    assert_eq!(numbers(&settings, &own, &FULL), (31, 31));
    assert_eq!(numbers(&settings, &source, &FULL), (39, 0));
}

/// Both ends of a range are included; 31 to 34 in order.
#[test]
fn all_four_lists() {
    let all_on = Settings {
        source_pass: Choice::First,
        source_reject: Choice::First,
        destination_pass: Choice::First,
        destination_reject: Choice::First,
        ..node(7)
    };
    let source = [0x1234, 0x1240];
    let destination = [0x5600, 0x5678];
    let hear_with = |lists| numbers(&all_on, &Lists::firsts(lists), &FULL);
    assert_eq!(hear_with([&[], &source, &[], &destination]), (31, 31));
    assert_eq!(hear_with([&source, &source, &[], &destination]), (32, 32));
    assert_eq!(hear_with([&source, &[], &[], &destination]), (33, 33));
    let both = [&source[..], &[], &destination, &destination];
    assert_eq!(hear_with(both), (34, 34));
    assert_eq!(hear_with([&source, &[], &destination, &[]]), (39, 0));
}

/// *Chosen*: without a destination, 33 and 34 are not given.
#[test]
fn no_destination_passes_destination_lists() {
    let mut settings = node(7);
    settings.destination_pass = Choice::First;
    settings.destination_reject = Choice::First;
    let lists = Lists::firsts([&[], &[], &[], &[0, 65535]]);
    assert_eq!(numbers(&settings, &lists, &[0, 0, 16, 0, 0, 1]), (0, 0));
}

/// Steps 5 and 6 side by side, for a PDU to this node and to another.
#[test]
fn delivery_and_repeating() {
    assert_eq!(numbers(&node(0x5678), &Lists::EMPTY, &FULL), (35, 41));
    assert_eq!(numbers(&node(1), &Lists::EMPTY, &FULL), (30, 30));
    let mut quiet = node(3);
    quiet.repeating = false;
    assert_eq!(numbers(&quiet, &Lists::EMPTY, &FULL), (39, 36));
    quiet.own_address = 0x5678;
    assert_eq!(numbers(&quiet, &Lists::EMPTY, &FULL), (35, 41));
}

/// "If the output is then too short, 40 is given twice and nothing is
/// delivered"; exactly enough is enough.
#[test]
fn repeat_needs_room() {
    let received = [2, 0, 0x60, 1, 0, 1, 0, 0x55];
    let mut out = [0xAA; 12];
    let answer = hear(&node(9), &Lists::EMPTY, &received, &mut out[..9]);
    assert_eq!((answer.delivery, answer.repeat), (40, 40));
    assert_eq!((answer.delivered, answer.repeated_length), ((0, 0), 0));
    assert_eq!((answer.taken, out), (8, [0xAA; 12]));
    let answer = hear(&node(9), &Lists::EMPTY, &received, &mut out[..10]);
    assert_eq!((answer.delivery, answer.repeat), (0, 0));
    assert_eq!((answer.delivered, answer.repeated_length), ((7, 1), 10));
    let repeated = [2, 0, 0x50, 1, 0, 1, 1, 0, 9, 0x55, 0xAA, 0xAA];
    assert_eq!(out, repeated);
}

/// 01, "One PDU at one node": 1 to 6 lowered by one, 7 kept, 0 not repeated.
#[test]
fn hop_limits() {
    for hop in 0..=7u8 {
        let received = [0, 0, hop << 4, 0, 0, 1];
        let mut out = [0xAA; 6];
        let answer = hear(&node(9), &Lists::EMPTY, &received, &mut out);
        match hop {
            0 => assert_eq!((answer.repeat, out), (37, [0xAA; 6])),
            7 => assert_eq!((answer.repeat, out[2]), (0, 0x70)),
            _ => assert_eq!((answer.repeat, out[2]), (0, (hop - 1) << 4)),
        }
    }
}

/// 02, W-205: "whenever the PDU was read", whatever number is then given.
#[test]
fn the_last_sender_is_carried_on() {
    let at = |settings: &Settings, lists: &Lists, received: &[u8], room: usize| {
        let answer = hear(settings, lists, received, &mut vec![0; room]);
        (answer.delivery, answer.last_sender)
    };
    let passing_none = Settings {
        source_pass: Choice::First,
        ..node(9)
    };
    let faulty = Lists::firsts([&[2, 1], &[], &[], &[]]);
    assert_eq!(at(&node(9), &Lists::EMPTY, &FULL, 30), (39, Some(2)));
    assert_eq!(at(&node(1), &Lists::EMPTY, &FULL, 30), (30, Some(2)));
    assert_eq!(at(&passing_none, &Lists::EMPTY, &FULL, 30), (31, Some(2)));
    assert_eq!(at(&node(9), &Lists::EMPTY, &FULL, 18), (40, Some(2)));
    assert_eq!(at(&node(9), &Lists::EMPTY, &FULL[..16], 30), (6, None));
    assert_eq!(at(&node(9), &faulty, &FULL, 30), (20, None));
    assert_eq!(
        at(&node(9), &Lists::EMPTY, &[0, 0, 0, 0, 0, 5], 9),
        (0, None)
    );
}

/// 02, W-205: of a repeat, the node that repeated it; the sixth field.
#[test]
fn a_repeat_is_heard_from_its_repeater() {
    let mut out = [0; MOST_PDU];
    let length = hear(&node(9), &Lists::EMPTY, &FULL, &mut out).repeated_length;
    let heard = hear(&node(8), &Lists::EMPTY, &out[..length], &mut [0; MOST_PDU]);
    assert_eq!(heard.last_sender, Some(9));
    let batch = [2, 0, 0, 0, 0, 0, 0, 0, 0, 0, 0, 0, 5, 9];
    let job = [&[0, 9, 3, 0, 0, 0, 0, 0, 14], &batch[..]].concat();
    let printed = "relay 9\n1 0 0 37 - 0\n2 7 0 37 - -\n3 13 1 1 - -\nend 3 13\n";
    assert_eq!(relay(&job), printed);
}

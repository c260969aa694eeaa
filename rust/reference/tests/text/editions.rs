//! 02, W-209: what the editions show, and where 16 and 17 stand.

use crate::ASKED;
use reference::*;

/// Numbers that are no edition: beside the two, and those that one of them
/// would be if it were trimmed.
const OTHERS: [u64; 9] = [
    0,
    1,
    10,
    13,
    256 + 12,
    65_536 + 11,
    (1 << 32) + 11,
    (1 << 32) + 12,
    u64::MAX,
];
const BOTH: [u64; 2] = [EDITION_1_1, EDITION_1_2];

/// A PDU of 6 bytes with hop limit 2 whose byte 1 is this.
fn pdu(byte_1: u8) -> [u8; 6] {
    [0, byte_1, 0x20, 0, 0, 5]
}

fn node(edition: u64) -> Settings {
    Settings {
        edition,
        own_address: 9,
        repeating: true,
        ..Settings::default()
    }
}

fn asked(edition: u64, encrypted: bool) -> Origination {
    Origination {
        edition,
        encrypted,
        port: 15,
        hop: 7,
        source: 5,
        ..ASKED
    }
}

#[test]
fn the_three_bits_under_each() {
    for byte_1 in 0..=255 {
        let three = byte_1 / 2 % 8;
        let shown = |edition| read_under(edition, &pdu(byte_1)).unwrap();
        assert_eq!(shown(EDITION_1_1).bits, Bits::Reserved(three));
        let flagged = Bits::Flagged(three / 4 == 1, three % 4);
        assert_eq!(shown(EDITION_1_2).bits, flagged);
        for edition in BOTH {
            let shown = shown(edition);
            assert_eq!((shown.others.encrypted, shown.others.reserved), (false, 0));
            let header = read(&pdu(byte_1)).unwrap();
            assert_eq!(
                (shown.others.port, shown.others.ack),
                (header.port, header.ack)
            );
            assert_eq!(shown.header(), header);
        }
    }
}

#[test]
fn what_is_read_is_written_again() {
    for byte_1 in 0..=255 {
        for edition in BOTH {
            let mut out = [0xAA; 7];
            assert_eq!(write_again(edition, &pdu(byte_1), &mut out), (0, 6));
            assert_eq!((&out[..6], out[6]), (&pdu(byte_1)[..], 0xAA));
            assert_eq!(write_again(edition, &pdu(byte_1), &mut out[..5]), (14, 0));
        }
    }
}

#[test]
fn repeating_is_the_same_under_both() {
    for byte_1 in 0..=255 {
        let [one, two] = BOTH.map(|edition| {
            let mut out = [0xAA; 7];
            let answer = hear(&node(edition), &Lists::EMPTY, &pdu(byte_1), &mut out);
            (answer, out)
        });
        assert_eq!(one, two);
        assert_eq!(two.1, [0, byte_1, 0x10, 0, 0, 5, 0xAA]);
    }
}

#[test]
fn another_number_is_17_before_all() {
    let (odd, bad) = ([1_u16], [2, 1]);
    let faults = Lists::firsts([&odd, &[], &[], &bad]);
    for edition in OTHERS {
        assert_eq!(Edition::of(edition), Err(17));
        for bytes in [&pdu(0)[..], &pdu(0)[..5], &[0x40; 6], &[]] {
            assert_eq!(read_under(edition, bytes), Err(17));
            assert_eq!(write_again(edition, bytes, &mut []), (17, 0));
            for lists in [Lists::EMPTY, faults] {
                let mut out = [0xAA; 7];
                let answer = hear(&node(edition), &lists, bytes, &mut out);
                assert_eq!((answer.delivery, answer.repeat), (17, 17));
                assert_eq!((answer.taken, answer.last_sender), (0, None));
                assert_eq!((answer.delivered, answer.repeated_length), ((0, 0), 0));
                assert_eq!(out, [0xAA; 7]);
            }
        }
        let refused = Origination {
            hop: 8,
            port: 16,
            reliable: true,
            ..asked(edition, true)
        };
        assert_eq!(originate(&refused, &[0; 4096], &mut []), (17, 0));
    }
}

#[test]
fn it_ends_a_walk() {
    let bad = [2, 1];
    let faults = Lists::firsts([&[], &[], &bad, &[]]);
    for edition in OTHERS {
        for length in [1, 12, MOST_BATCH, MOST_BATCH + 1] {
            let batch = vec![0; length];
            let walked = walk(&node(edition), &faults, &batch, &mut [0; 6]).unwrap();
            let numbers: Vec<_> = walked.steps.iter().map(|step| step.answer.repeat).collect();
            assert_eq!((numbers, walked.end), (vec![17], 0));
        }
        let walked = walk(&node(edition), &faults, &[], &mut []).unwrap();
        assert_eq!((walked.steps, walked.end), (vec![], 0));
    }
    for edition in BOTH {
        let long = vec![0; MOST_BATCH + 1];
        let walked = walk(&node(edition), &faults, &long, &mut []);
        assert_eq!(walked, Err(54));
    }
}

#[test]
fn it_counts_nothing() {
    for edition in OTHERS {
        let mut stations = Stations::empty();
        let (answer, number) = hear_and_count(
            &node(edition),
            &Lists::EMPTY,
            &pdu(0),
            &mut [0; 6],
            &mut stations,
        );
        assert_eq!((answer.delivery, number), (17, 0));
        assert_eq!(stations.list(), vec![]);
    }
}

#[test]
fn the_flag_is_set_under_1_2() {
    let mut out = [0xAA; 8];
    let written = originate(&asked(EDITION_1_2, true), &[7], &mut out);
    assert_eq!((written, out), ((0, 7), [0, 0xF8, 0x70, 1, 0, 5, 7, 0xAA]));
    for edition in BOTH {
        let mut out = [0xAA; 8];
        let written = originate(&asked(edition, false), &[7], &mut out);
        assert_eq!((written, out), ((0, 7), [0, 0xF0, 0x70, 1, 0, 5, 7, 0xAA]));
    }
}

/// 16 "after 13 and before 14".
#[test]
fn encryption_under_1_1() {
    let mut settings = Origination {
        hop: 8,
        port: 16,
        reliable: true,
        ..asked(EDITION_1_1, true)
    };
    let number = |settings: &Origination, length| originate(settings, &vec![0; length], &mut []).0;
    assert_eq!(number(&settings, 4096), 10);
    settings.hop = 7;
    assert_eq!(number(&settings, 4096), 11);
    settings.port = 15;
    assert_eq!(number(&settings, 4096), 12);
    assert_eq!(number(&settings, 4095), 13);
    settings.reliable = false;
    assert_eq!(number(&settings, 4095), 16);
    settings.edition = EDITION_1_2;
    assert_eq!(number(&settings, 4095), 14);
}

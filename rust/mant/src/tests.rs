//! The example of 01 and what surrounds it.

use super::*;

const EDITION: u64 = EDITION_1_2;

mod exchange;
mod lists;
mod node;
mod originating;
mod queue;
mod reading;
mod reliable;
mod sealed;
mod stations;

const PAYLOAD: [u8; 11] = [
    0x70, 0x01, 0x08, 0x12, 0x12, 0x03, 0x24, 0x13, 0x22, 0x02, 0x76,
];
const START: [u8; 9] = [0x03, 0x00, 0x10, 0x0B, 0x03, 0xE8, 0x06, 0x40, 0x00];
const REPEATED_START: [u8; 11] = [
    0x03, 0x00, 0x00, 0x0B, 0x03, 0xE8, 0x06, 0x40, 0x01, 0x07, 0xD0,
];

fn example() -> Vec<u8> {
    [&START[..], &PAYLOAD].concat()
}

fn repeated() -> Vec<u8> {
    [&REPEATED_START[..], &PAYLOAD].concat()
}

fn fresh() -> Fresh {
    Fresh {
        source: 1000,
        destination: Some(1600),
        hop_limit: 1,
        with_path: true,
        ..Fresh::default()
    }
}

fn source_pass(first: &[u16], second: &[u16]) -> Result<Lists, ListFault> {
    Lists::lay(&EightLists {
        source_pass: TwoLists { first, second },
        ..EightLists::default()
    })
}

/// The answers of a walk at node 2000, each with its PDU's place, and where it
/// ended.
fn walked(batch: &[u8]) -> (Vec<(usize, Answer)>, usize) {
    let (node, lists) = (Node::new(2000), Lists::none());
    let (mut cursor, mut answers) = (Cursor::default(), vec![]);
    while let Step::Answered(answer, next) = step(&node, &lists, batch, cursor, &mut [0; 4615]) {
        answers.push((cursor.place, answer));
        cursor = next;
    }
    (answers, cursor.place)
}

#[test]
fn bounds_and_limits() {
    assert_eq!(most_transmissions(3, 2), Ok(Some(10)));
    assert_eq!(most_transmissions(3, 7), Ok(Some(16)));
    assert_eq!(most_transmissions(u64::MAX, 7), Ok(None));
    assert_eq!(most_transmissions(3, 8), Err(Refusal::HopLimitAbove7));
    assert_eq!(most_bytes(3, 1, 20), Ok(Some(20 + 3 * 22)));
    assert_eq!(most_for_command(0, 3, 3, 3, 3), Ok(Some(16 + 16 * 16)));
    assert_eq!(most_for_command(2, 1, 1, 0, 7), Ok(Some(3 * 2 * 2)));
    assert_eq!(most_for_command(u64::MAX, 0, 0, 0, 0), Ok(None));
    let above = Err(Refusal::HopLimitAbove7);
    assert_eq!(most_for_command(0, 1, 8, 1, 7), above);
    assert_eq!(most_for_command(0, 1, 7, 1, 8), above);
    let limits = limits();
    assert_eq!((limits.payload, limits.pdu), (PAYLOAD_LIMIT, PDU_LIMIT));
    assert_eq!((limits.fixed, limits.payload, limits.path), (6, 4095, 255));
    assert_eq!((limits.header, limits.pdu), (520, 4615));
    assert_eq!((limits.list, limits.batch), (128, 16_384));
}

#[test]
fn networks() {
    assert_eq!(Network::new(&[], &[], 0), None);
    assert_eq!(Network::new(&[], &[0; 3], 3), None);
    assert_eq!(Network::new(&[], &[0; 256], 0), None);
    let line: Vec<[u8; 2]> = (0..254).map(|node| [node, node + 1]).collect();
    let network = Network::new(&line, &[0; 255], 0).unwrap();
    let chains = network.chains(None);
    assert_eq!((chains.length(254), chains.length(255)), (Some(254), None));
    assert_eq!(chains.least_hop_limit(), Some(7));
    let counts = [0, 1, 7, 8].map(|node| chains.path_count(node, 6));
    assert_eq!(counts, [None, Some(0), Some(6), None]);
    assert_eq!(chains.path_count(254, 7), Some(253));
    let cut = network.chains(Some(5));
    assert_eq!(
        (cut.length(4), cut.length(5), cut.length(6)),
        (Some(4), None, None)
    );
    assert_eq!(cut.least_hop_limit(), None);
    assert_eq!(network.chains(Some(254)).least_hop_limit(), Some(7));
    let mut table = [7; Network::TABLE];
    let times = network.transmissions(7, 256, &mut table).unwrap().unwrap();
    assert_eq!((times.total, times.each()), (255, &[1; 255][..]));
    assert_eq!(network.transmissions(7, 255, &mut table), Ok(None));
    let refused = network.bytes(8, 20, 9, &mut table);
    assert_eq!(refused, Err(Refusal::HopLimitAbove7));
}

#[test]
fn refusals_print_number_and_meaning() {
    let refusal: Box<dyn std::error::Error> = Box::new(Refusal::TooShort);
    assert_eq!(
        refusal.to_string(),
        "1 (too short: every PDU has 6 bytes or more)"
    );
    for refusal in Refusal::ALL {
        assert_eq!(Refusal::from_number(refusal.number()), Some(*refusal));
    }
    assert_eq!(Refusal::from_number(0), None);
}

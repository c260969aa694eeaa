//! The PDUs of a history: to be retained, acknowledged, or neither.

use super::Habits;
use crate::random::Random;
use crate::received::{cut, damaged, received};
use crate::shape::{address, shape, Shape};
use reference::{read, Table};

/// A reliable PDU between the node of a history and one of the others.
fn command(random: &mut Random, habits: &Habits) -> Shape {
    let mut pdu = shape(random);
    pdu.reliable = true;
    pdu.ack = false;
    pdu.source = habits.own_address;
    pdu.destination = Some(random.pick(&habits.others));
    pdu.pdu_id = random.below(habits.ids) as u8;
    pdu.path = random.flag().then(Vec::new);
    let header = pdu.header_length();
    let length = match random.below(12) {
        0 => 256,
        1 => 255,
        2 => 257,
        3 => random.between(200, 300),
        _ => header + random.below(20),
    };
    pdu.payload = random.bytes(length.saturating_sub(header));
    pdu
}

/// Mostly a PDU that can be retained; else one with a path address or ACK set
/// or best efforts, a damaged or a cut one, or one with a byte after it.
pub fn to_retain(random: &mut Random, habits: &Habits) -> Vec<u8> {
    let mut pdu = command(random, habits);
    match random.below(24) {
        0 => pdu.path = Some(vec![address(random)]),
        1 => pdu.ack = true,
        2 => pdu.reliable = false,
        3 => return damaged(random),
        4 => return cut(random),
        5 => return [pdu.bytes(), random.bytes(1)].concat(),
        6 => return received(random),
        _ => {}
    }
    pdu.bytes()
}

/// What the node hears: an acknowledgement, a PDU to be acknowledged, or bytes
/// of any kind.
pub fn heard(random: &mut Random, habits: &Habits, table: &Table) -> Vec<u8> {
    match random.one_in(6) {
        true => received(random),
        false => answer_to(random, habits, table).bytes(),
    }
}

/// A reliable PDU to the node: often the acknowledgement of one retained, now
/// and then with a field that does not match; at times with an added header or
/// for another.
pub fn answer_to(random: &mut Random, habits: &Habits, table: &Table) -> Shape {
    let mut pdu = command(random, habits);
    pdu.source = random.pick(&habits.others);
    pdu.destination = Some(habits.own_address);
    pdu.ack = random.flag();
    pdu.added_header = random.one_in(8);
    let used: Vec<_> = table.records().iter().flatten().collect();
    if !used.is_empty() && !random.one_in(3) {
        if let Ok(header) = read(&used[random.below(used.len())].pdu) {
            pdu.ack = true;
            pdu.source = header.destination.unwrap_or(0);
            pdu.destination = Some(header.source);
            pdu.pdu_id = header.pdu_id.unwrap_or(0);
        }
    }
    match random.below(12) {
        0 => pdu.source = address(random),
        1 => pdu.destination = Some(address(random)),
        2 => pdu.pdu_id = random.byte(),
        3 => pdu.reliable = false,
        4 => pdu.path = Some(vec![random.word()]),
        _ => {}
    }
    pdu
}

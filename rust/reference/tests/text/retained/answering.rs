//! What a PDU heard does: it is answered, or frees a record.

use super::*;
use crate::node;

#[test]
fn a_delivered_reliable_pdu_is_answered() {
    let mut table = holding(2, 5);
    let before = table.clone();
    for (path, stamp, flags) in [(false, false, 0), (true, false, 2), (false, true, 4)] {
        let sending = Sending {
            path,
            time_stamp_request: stamp,
            ..SENDING
        };
        let mut out = [0xAA; 12];
        let mut wanted = acknowledgement(200, flags);
        wanted.extend(path.then_some(0));
        let heard = table.heard(1600, &command(200, 4), 0, &sending, &mut out);
        assert_eq!(heard, Ok(Done::Answered(names(200), wanted.len())));
        assert_eq!(out[..wanted.len()], wanted);
        assert!(out[wanted.len()..].iter().all(|byte| *byte == 0xAA));
        assert_eq!(table, before);
    }
}

#[test]
fn no_other_is_answered() {
    let mut best_efforts = command(1, 3);
    best_efforts[0] = 0x01;
    best_efforts[3] = 4;
    let mut added = command(1, 3);
    added[2] |= 0x80;
    for (own, bytes, delivery) in [
        (1600, best_efforts, 0),
        (1600, command(1, 3), 35),
        (1600, command(1, 3), 39),
        (1600, command(1, 3), 30),
        (1600, command(1, 3)[..8].to_vec(), 0),
        (2000, command(1, 3), 0),
        (1600, added, 0),
        (0, vec![8], 0),
        (1000, acknowledgement(9, 0), 0),
        (1600, acknowledgement(1, 0), 0),
    ] {
        let (mut table, mut out) = (holding(2, 5), [0xAA; 300]);
        let refusing = Sending {
            hop: 8,
            port: 16,
            ..SENDING
        };
        let heard = table.heard(own, &bytes, delivery, &refusing, &mut out);
        assert_eq!((heard, out), (Ok(Done::Nothing), [0xAA; 300]));
        assert_eq!(table, holding(2, 5));
    }
}

#[test]
fn hop_then_port_then_the_memory_then_room() {
    let sending = |hop, port| Sending {
        hop,
        port,
        ..SENDING
    };
    let number = |count: usize, sending: Sending, room: usize| {
        let mut table = Table::of(vec![None; count], 0);
        table.heard(1600, &command(1, 0), 0, &sending, &mut vec![0; room])
    };
    assert_eq!(number(15, sending(8, 16), 0), Err(10));
    assert_eq!(number(15, sending(7, 16), 0), Err(11));
    assert_eq!(number(15, sending(7, 15), 0), Err(74));
    assert_eq!(number(16, sending(7, 15), 0), Err(77));
    assert_eq!(number(16, sending(1 << 32, 0), 9), Err(10));
    assert!(number(16, sending(7, 15), 9).is_ok());
}

#[test]
fn an_acknowledgement_frees_the_first_that_matches() {
    for (place, byte) in [(8, 9), (4, 9), (6, 9)] {
        let mut other = acknowledgement(1, 0);
        other[place] ^= byte;
        let heard = holding(3, 5).heard(1000, &other, 0, &SENDING, &mut []);
        assert_ne!(heard, Ok(Done::Freed(1, names(1))));
    }
    let mut not_exchanged = command(1, 0);
    not_exchanged[1] = 1;
    let mut table = holding(3, 5);
    let heard = table.heard(1600, &not_exchanged, 0, &SENDING, &mut []);
    assert_eq!((heard, &table), (Ok(Done::Nothing), &holding(3, 5)));
    let undelivered = table.heard(1000, &acknowledgement(1, 0), 39, &SENDING, &mut []);
    assert_eq!((undelivered, &table), (Ok(Done::Nothing), &holding(3, 5)));
}

/// Retained, delivered, acknowledged, freed.
#[test]
fn two_nodes() {
    let (mut gate, mut base, mut out) = (Table::free(), Table::free(), [0; 256]);
    base.retain(5, &command(3, 3)).unwrap();
    let at_gate = hear(&node(1600), &Lists::EMPTY, &command(3, 3), &mut []);
    let answered = gate.heard(1600, &command(3, 3), at_gate.delivery, &SENDING, &mut out);
    assert_eq!(answered, Ok(Done::Answered(names(3), 9)));
    let at_base = hear(&node(1000), &Lists::EMPTY, &out[..9], &mut []);
    assert_eq!((at_base.delivery, at_base.delivered.1), (0, 0));
    let freed = base.heard(1000, &out[..9], at_base.delivery, &SENDING, &mut []);
    assert_eq!(freed, Ok(Done::Freed(0, names(3))));
    assert_eq!((gate, base), (Table::free(), Table::of(vec![None; 16], 5)));
}

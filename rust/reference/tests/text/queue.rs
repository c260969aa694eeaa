//! 02, W-206 and W-207, sentence by sentence.

use reference::*;

/// A PDU of so many bytes, 6 or more, from this source.
fn pdu(source: u16, length: usize) -> Vec<u8> {
    let [high, low] = ((length - 6) as u16).to_be_bytes();
    let mut bytes = vec![0, 0, high, low];
    bytes.extend(source.to_be_bytes());
    bytes.resize(length, source as u8);
    bytes
}

/// A queue of so many PDUs of a length, from the sources 0, 1 and so on.
fn filled(count: u16, length: usize) -> Queue {
    let mut queue = Queue::empty();
    for source in 0..count {
        assert_eq!(queue.add(&pdu(source, length)), 0);
    }
    queue
}

/// What is taken with so much room, and the bytes written; those past them
/// are kept.
fn taken(queue: &mut Queue, room: usize) -> (u8, usize, Vec<u8>) {
    let mut out = vec![0xAA; room];
    let taken = queue.take(&mut out);
    assert!(out[taken.bytes..].iter().all(|byte| *byte == 0xAA));
    out.truncate(taken.bytes);
    (taken.number, taken.pdus, out)
}

#[test]
fn up_to_32_pdus() {
    let mut queue = filled(32, 6);
    let before = queue.clone();
    assert_eq!(queue.add(&pdu(99, 6)), 60);
    assert_eq!((&queue, queue.bytes()), (&before, 192));
    assert_eq!(taken(&mut queue, 6), (0, 1, pdu(0, 6)));
    assert_eq!(queue.add(&pdu(99, 6)), 0);
    assert_eq!(queue.held().len(), MOST_HELD);
    assert_eq!(queue.held().last(), Some(&pdu(99, 6)));
}

#[test]
fn up_to_2048_bytes() {
    let mut queue = filled(31, 64);
    let before = queue.clone();
    assert_eq!(queue.add(&pdu(99, 65)), 60);
    assert_eq!(queue, before);
    assert_eq!(queue.add(&pdu(99, 64)), 0);
    assert_eq!((queue.held().len(), queue.bytes()), (32, 2_048));
    let mut one = Queue::empty();
    assert_eq!(one.add(&pdu(1, 2_049)), 60);
    assert_eq!(one.add(&pdu(1, 2_048)), 0);
    assert_eq!(one.add(&pdu(1, 6)), 60);
    assert_eq!(one.bytes(), MOST_HELD_BYTES);
}

#[test]
fn exactly_one_pdu() {
    let joined = [pdu(1, 6), pdu(2, 9)].concat();
    let followed = [pdu(1, 6), vec![0]].concat();
    let damaged = [vec![0x40], pdu(1, 6)[1..].to_vec()].concat();
    let reliable = [8, 0, 0, 0, 0, 1];
    for bytes in [
        &[][..],
        &pdu(1, 9)[..8],
        &pdu(1, 9)[..5],
        &joined,
        &followed,
        &damaged,
        &reliable,
    ] {
        assert_eq!(Queue::empty().add(bytes), 61);
    }
    assert_eq!(Queue::empty().add(&pdu(1, 4_101)), 60);
}

#[test]
fn refused_with_61_before_60() {
    for mut queue in [filled(32, 6), filled(1, 2_048)] {
        let before = queue.clone();
        assert_eq!(queue.add(&[]), 61);
        assert_eq!(queue.add(&pdu(1, 9)[..8]), 61);
        assert_eq!(queue.add(&[0; 4_616]), 61);
        assert_eq!(queue, before);
    }
}

#[test]
fn as_many_of_the_oldest_as_fit() {
    let lengths = [10, 20, 6, 30];
    for (room, count) in [
        (10, 1),
        (29, 1),
        (30, 2),
        (35, 2),
        (36, 3),
        (65, 3),
        (66, 4),
        (99, 4),
    ] {
        let mut queue = Queue::empty();
        let pdus: Vec<_> = (0..4)
            .map(|place| pdu(place as u16, lengths[place]))
            .collect();
        for pdu in &pdus {
            assert_eq!(queue.add(pdu), 0);
        }
        let written = pdus[..count].concat();
        assert_eq!(taken(&mut queue, room), (0, count, written));
        assert_eq!(queue.held(), &pdus[count..]);
    }
}

#[test]
fn none_is_passed_over() {
    let mut queue = Queue::empty();
    queue.add(&pdu(1, 6));
    queue.add(&pdu(2, 20));
    queue.add(&pdu(3, 6));
    assert_eq!(taken(&mut queue, 12), (0, 1, pdu(1, 6)));
    assert_eq!(taken(&mut queue, 12), (62, 0, vec![]));
    assert_eq!(queue.held(), [pdu(2, 20), pdu(3, 6)]);
}

#[test]
fn nothing_held() {
    for room in [0, 5, 6, 5_000] {
        let mut queue = Queue::empty();
        assert_eq!(taken(&mut queue, room), (0, 0, vec![]));
        assert_eq!(queue, Queue::empty());
    }
}

#[test]
fn the_oldest_does_not_fit() {
    let mut queue = filled(3, 20);
    let before = queue.clone();
    for room in [0, 1, 6, 19] {
        assert_eq!(taken(&mut queue, room), (62, 0, vec![]));
        assert_eq!(queue, before);
    }
}

#[test]
fn clear_drops_all() {
    for mut queue in [filled(0, 6), filled(3, 20), filled(32, 64)] {
        queue.clear();
        assert_eq!((&queue, queue.bytes()), (&Queue::empty(), 0));
        assert_eq!(taken(&mut queue, 64), (0, 0, vec![]));
        assert_eq!(queue.add(&pdu(99, 2_048)), 0);
        assert_eq!(queue.held(), [pdu(99, 2_048)]);
    }
}

/// Each clear at its point in the sequence.
#[test]
fn accepted_are_those_taken_and_cleared_then_those_held() {
    let (mut queue, mut accepted, mut gone) = (Queue::empty(), vec![], vec![]);
    for turn in 0..500_u16 {
        let pdu = pdu(turn, 6 + usize::from(turn * 37 % 300));
        if queue.add(&pdu) == 0 {
            accepted.push(pdu);
        }
        if turn % 5 == 4 {
            gone.push(taken(&mut queue, usize::from(turn) * 91 % 1_500).2);
        }
        if turn % 90 == 89 {
            assert!(!queue.held().is_empty());
            gone.push(queue.held().concat());
            queue.clear();
        }
    }
    let (gone, held) = (gone.concat(), queue.held().concat());
    assert!(!gone.is_empty() && !held.is_empty());
    assert_eq!([gone, held].concat(), accepted.concat());
}

#[test]
fn a_batch_taken_is_walked_to_its_end() {
    let mut queue = filled(20, 33);
    let (number, pdus, batch) = taken(&mut queue, 400);
    assert_eq!((number, pdus), (0, 12));
    let every_setting = Settings {
        own_address: 3,
        echo: true,
        repeating: true,
        source_pass: Choice::First,
        ..Settings::default()
    };
    let walked = walk(&every_setting, &Lists::EMPTY, &batch, &mut []).unwrap();
    let offsets: Vec<usize> = walked.steps.iter().map(|step| step.offset).collect();
    assert_eq!(offsets, (0..12).map(|place| 33 * place).collect::<Vec<_>>());
    assert_eq!(walked.end, batch.len());
    let is_read = |step: &Step| !(1..=6).contains(&step.answer.delivery);
    assert!(walked.steps.iter().all(is_read));
}

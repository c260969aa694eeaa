//! A transmit queue, with one PDU and as full as it gets.

use crate::inputs;
use crate::plain;
use crate::timing::{copy, measure, Measured, ROOM};
use mant::raw::{self, Level, QUEUE_BYTES, QUEUE_LENGTH, QUEUE_PDUS};
use reference::Queue;
use std::hint::black_box;

/// 32 PDUs of so many bytes fill a queue.
const SHARE: usize = QUEUE_BYTES / QUEUE_PDUS;

/// The same queue three times.
struct Queues {
    library: [u8; QUEUE_LENGTH],
    reference: Queue,
    plain: plain::Ring,
}

impl Queues {
    /// Queues that hold so many PDUs, each of a 32nd of the bytes.
    fn holding(count: usize) -> Queues {
        let mut queues = Queues {
            library: [0; QUEUE_LENGTH],
            reference: Queue::empty(),
            plain: plain::Ring::empty(),
        };
        for _ in 0..count {
            assert_eq!(queues.add(&pdu(SHARE)), 0);
        }
        queues
    }

    /// Adds to each; they answer the same.
    fn add(&mut self, pdu: &[u8]) -> u8 {
        let number = raw::queue_add(&mut self.library, pdu);
        assert_eq!(number, self.reference.add(pdu));
        assert_eq!(number, plain::queue_add(&mut self.plain, pdu));
        self.check();
        number
    }

    /// Takes from each; they answer and write the same.
    fn take(&mut self, room: usize) -> raw::Batch {
        let mut outputs = [vec![1; room], vec![1; room], vec![1; room]];
        let [one, two, three] = &mut outputs;
        let batch = raw::queue_take(&mut self.library, one);
        let taken = self.reference.take(two);
        assert_eq!((batch.number, batch.pdus), (taken.number, taken.pdus));
        assert_eq!(batch, plain::queue_take(&mut self.plain, three));
        assert!(outputs[0] == outputs[1] && outputs[1] == outputs[2]);
        self.check();
        batch
    }

    /// Clears each.
    fn clear(&mut self) {
        raw::queue_clear(&mut self.library);
        self.reference.clear();
        plain::queue_clear(&mut self.plain);
        self.check();
    }

    /// The three have the same level.
    fn check(&self) {
        let level = raw::queue_level(&self.library);
        assert_eq!(level, level_in_reference(&self.reference));
        assert_eq!(level, plain::queue_level(&self.plain));
    }
}

#[inline]
fn level_in_reference(queue: &Queue) -> Level {
    Level {
        pdus: queue.held().len(),
        bytes: queue.bytes(),
    }
}

/// A PDU of so many bytes.
fn pdu(length: usize) -> Vec<u8> {
    inputs::pdu(0, &vec![7; length - inputs::pdu(0, &[]).len()])
}

/// The level of a queue that holds so many PDUs; memcpy copies as many bytes as
/// a level has.
pub fn level(held: usize) -> [Measured; 4] {
    let Queues {
        library,
        reference,
        plain,
    } = Queues::holding(held);
    measure(
        &[7; size_of::<Level>()],
        [
            &mut |_: &[u8], _: &mut [u8]| {
                black_box(raw::queue_level(black_box(&library)));
            },
            &mut |_: &[u8], _: &mut [u8]| {
                black_box(level_in_reference(black_box(&reference)));
            },
            &mut |_: &[u8], _: &mut [u8]| {
                black_box(plain::queue_level(black_box(&plain)));
            },
            &mut |input: &[u8], output: &mut [u8]| copy(input, output, size_of::<Level>()),
        ],
    )
}

/// So many PDUs of a length added to a queue that holds some, and as many of
/// the oldest taken, which have the same length; memcpy copies each PDU once,
/// and then what was taken.
pub fn adding_and_taking(held: usize, count: usize, length: usize) -> [Measured; 4] {
    let Queues {
        mut library,
        mut reference,
        mut plain,
    } = Queues::holding(held);
    let pdu = pdu(length);
    let bytes = count * length;
    measure(
        &pdu,
        [
            &mut |input: &[u8], output: &mut [u8]| {
                for _ in 0..count {
                    black_box(raw::queue_add(&mut library, input));
                }
                black_box(raw::queue_take(&mut library, &mut output[..bytes]));
            },
            &mut |input: &[u8], output: &mut [u8]| {
                for _ in 0..count {
                    black_box(reference.add(input));
                }
                black_box(reference.take(&mut output[..bytes]));
            },
            &mut |input: &[u8], output: &mut [u8]| {
                for _ in 0..count {
                    black_box(plain::queue_add(&mut plain, input));
                }
                black_box(plain::queue_take(&mut plain, &mut output[..bytes]));
            },
            &mut |input: &[u8], output: &mut [u8]| {
                let (first, second) = output.split_at_mut(bytes);
                for place in 0..count {
                    copy(input, &mut first[place * length..], length);
                }
                copy(first, second, bytes);
            },
        ],
    )
}

/// A PDU of so many bytes added to an empty queue, which is then cleared; memcpy
/// copies the PDU.
pub fn adding_and_clearing(length: usize) -> [Measured; 4] {
    let Queues {
        mut library,
        mut reference,
        mut plain,
    } = Queues::holding(0);
    measure(
        &pdu(length),
        [
            &mut |input: &[u8], _: &mut [u8]| {
                black_box(raw::queue_add(&mut library, input));
                raw::queue_clear(black_box(&mut library));
            },
            &mut |input: &[u8], _: &mut [u8]| {
                black_box(reference.add(input));
                black_box(&mut reference).clear();
            },
            &mut |input: &[u8], _: &mut [u8]| {
                black_box(plain::queue_add(&mut plain, input));
                plain::queue_clear(black_box(&mut plain));
            },
            &mut |input: &[u8], output: &mut [u8]| copy(input, output, length),
        ],
    )
}

/// The plain ring answers as the library's queue does on what is measured, and
/// at the limits.
pub fn check_plain() {
    let mut queues = Queues::holding(QUEUE_PDUS);
    assert_eq!(queues.add(&pdu(SHARE)), 60);
    assert_eq!(queues.add(&pdu(SHARE)[1..]), 61);
    assert_eq!(queues.take(SHARE - 1).number, 62);
    assert_eq!(queues.take(5 * SHARE + 1).pdus, 5);
    assert_eq!(queues.add(&pdu(5 * SHARE + 1)), 60);
    assert_eq!(queues.add(&pdu(5 * SHARE)), 0);
    assert_eq!(queues.take(QUEUE_BYTES).pdus, QUEUE_PDUS - 4);
    assert_eq!(queues.take(QUEUE_BYTES).bytes, 0);
    assert_eq!(queues.add(&pdu(QUEUE_BYTES)), 0);
    assert_eq!(queues.take(ROOM).bytes, QUEUE_BYTES);
    for _ in 0..100 {
        assert_eq!(queues.add(&pdu(SHARE)), 0);
        assert_eq!(queues.add(&inputs::example()), 0);
        assert_eq!(queues.take(SHARE + 20).pdus, 2);
    }
    for count in [0, 1, QUEUE_PDUS] {
        let mut queues = Queues::holding(count);
        queues.clear();
        assert_eq!(queues.take(ROOM).pdus, 0);
        assert_eq!(queues.add(&pdu(QUEUE_BYTES)), 0);
    }
}

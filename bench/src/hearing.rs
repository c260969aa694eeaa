//! One PDU read, originated and heard, and a batch walked.

use crate::inputs::{self, ASKED, EDITION, FRESH, NODE, NO_LISTS, SETTINGS};
use crate::plain;
use crate::timing::{copy, hidden, measure, Measured, ROOM};
use mant::raw;
use reference::{Lists, Settings};
use std::hint::black_box;

/// Reading; memcpy copies the PDU.
pub fn reading(pdu: &[u8]) -> [Measured; 4] {
    let length = pdu.len();
    measure(
        pdu,
        [
            &mut |input: &[u8], _: &mut [u8]| {
                black_box(raw::read(black_box(EDITION), input));
            },
            &mut |input: &[u8], _: &mut [u8]| {
                drop(black_box(reference::read_under(black_box(EDITION), input)))
            },
            &mut |input: &[u8], _: &mut [u8]| {
                black_box(plain::read(black_box(EDITION), input));
            },
            &mut |input: &[u8], output: &mut [u8]| copy(input, output, length),
        ],
    )
}

/// Origination; memcpy copies the bytes of the fresh PDU.
pub fn originating(payload: &[u8]) -> [Measured; 4] {
    let fresh = inputs::pdu(0, payload);
    let length = fresh.len();
    let part = payload.len();
    // The payload stands at the end of the input, so that memcpy has as many
    // bytes to copy as a fresh PDU has.
    let start = length - part;
    measure(
        &fresh,
        [
            &mut |input: &[u8], output: &mut [u8]| {
                black_box(raw::originate(black_box(FRESH), &input[start..], output));
            },
            &mut |input: &[u8], output: &mut [u8]| {
                black_box(reference::originate(
                    black_box(&ASKED),
                    &input[start..],
                    output,
                ));
            },
            &mut |input: &[u8], output: &mut [u8]| {
                black_box(plain::originate(black_box(FRESH), &input[start..], output));
            },
            &mut |input: &[u8], output: &mut [u8]| copy(input, output, length),
        ],
    )
}

/// One PDU at node 2000, repeated; memcpy copies the PDU.
pub fn hearing(pdu: &[u8]) -> [Measured; 4] {
    hearing_at(pdu, NODE, &SETTINGS, Lists::EMPTY)
}

/// The same with the first list of each kind on, so many ranges in each. Every
/// range is looked at, and the PDU is repeated.
pub fn hearing_by_lists(pdu: &[u8], ranges: usize) -> [Measured; 4] {
    let passing = inputs::passing(ranges);
    let rejecting = inputs::rejecting(ranges);
    let lists = Lists::firsts([&passing, &rejecting, &passing, &rejecting]);
    hearing_at(
        pdu,
        inputs::NODE_WITH_LISTS,
        &inputs::SETTINGS_WITH_LISTS,
        lists,
    )
}

fn hearing_at(pdu: &[u8], node: raw::Node, settings: &Settings, lists: Lists) -> [Measured; 4] {
    let length = pdu.len();
    let block = match lists == Lists::EMPTY {
        true => NO_LISTS.to_vec(),
        false => lists.laid(),
    };
    assert_eq!(raw::hear(node, &block, pdu, &mut [0; ROOM]).repeat, 0);
    measure(
        pdu,
        [
            &mut |input: &[u8], output: &mut [u8]| {
                black_box(raw::hear(black_box(node), hidden(&block), input, output));
            },
            &mut |input: &[u8], output: &mut [u8]| {
                let (settings, lists) = (black_box(settings), black_box(&lists));
                black_box(reference::hear(settings, lists, input, output));
            },
            &mut |input: &[u8], output: &mut [u8]| {
                black_box(plain::hear(black_box(node), hidden(&block), input, output));
            },
            &mut |input: &[u8], output: &mut [u8]| copy(input, output, length),
        ],
    )
}

/// The walk over a batch, every PDU repeated; memcpy copies each PDU to
/// the start of the output, as the walk does.
pub fn walking(batch: &[u8]) -> [Measured; 4] {
    let lengths = lengths(batch);
    measure(
        batch,
        [
            &mut |input: &[u8], output: &mut [u8]| {
                black_box(library_walk(input, output));
            },
            &mut |input: &[u8], output: &mut [u8]| {
                let settings = black_box(&SETTINGS);
                drop(black_box(reference::walk(
                    settings,
                    &Lists::EMPTY,
                    input,
                    output,
                )));
            },
            &mut |input: &[u8], output: &mut [u8]| {
                let (node, lists) = (black_box(NODE), hidden(NO_LISTS));
                black_box(plain::walk(node, lists, input, output));
            },
            &mut |input: &[u8], output: &mut [u8]| {
                let mut rest = input;
                for length in black_box(&lengths) {
                    copy(rest, output, *length);
                    rest = &rest[*length..];
                }
            },
        ],
    )
}

/// How long each PDU of a batch is.
fn lengths(batch: &[u8]) -> Vec<usize> {
    let walked = reference::walk(&SETTINGS, &Lists::EMPTY, batch, &mut [0; ROOM]);
    let steps = walked.map_or(vec![], |walked| walked.steps);
    steps.iter().map(|step| step.answer.taken).collect()
}

/// The walk with the library: how many PDUs, and where it ended.
fn library_walk(batch: &[u8], output: &mut [u8]) -> (usize, usize) {
    let (node, lists) = (black_box(NODE), hidden(NO_LISTS));
    let mut count = 0;
    let mut cursor = raw::Cursor::default();
    loop {
        let step = raw::step(node, lists, batch, cursor, output);
        if step.kind != raw::ANSWERED {
            return (count, cursor.place);
        }
        count += 1;
        cursor = step.next;
    }
}

/// The plain version answers as the library does on what is measured, and on
/// every cut of it.
pub fn check_plain() {
    let (mut one, mut other) = ([0; 5_000], [0; 5_000]);
    for pdu in [
        inputs::example(),
        inputs::pdu(6, &inputs::PAYLOAD),
        inputs::pdu(255, &[1; 4_095]),
        inputs::pdu(0, &[7; 4_095]),
    ] {
        for length in 0..=pdu.len() {
            let cut = &pdu[..length];
            assert_eq!(raw::read(EDITION, cut), plain::read(EDITION, cut));
            let library = raw::hear(NODE, NO_LISTS, cut, &mut one);
            let plain = plain::hear(NODE, NO_LISTS, cut, &mut other);
            assert_eq!(library, plain);
            assert_eq!(one, other);
        }
    }
    for payload in [&inputs::PAYLOAD[..], &[], &[1; 4_095], &[1; 4_096]] {
        let library = raw::originate(FRESH, payload, &mut one);
        assert_eq!(library, plain::originate(FRESH, payload, &mut other));
        assert_eq!(one, other);
    }
    for batch in [inputs::batch_of_small(), inputs::batch_of_large()] {
        let library = library_walk(&batch, &mut one);
        let plain = plain::walk(NODE, NO_LISTS, &batch, &mut other);
        assert_eq!(library, plain);
        assert_eq!(library.1, 16_384);
        assert_eq!(one, other);
    }
}

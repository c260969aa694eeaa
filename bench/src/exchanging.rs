//! Exchanges of a full PDU.

use crate::inputs;
use crate::plain;
use crate::timing::{copy, measure, Measured};
use mant::raw::{self, EXCHANGE_LIMIT};
use std::hint::black_box;

/// The exchange of a PDU, as the library writes it.
fn exchange(pdu: &[u8]) -> Vec<u8> {
    let mut bytes = vec![0; EXCHANGE_LIMIT];
    let written = raw::write_exchange(pdu, &mut bytes);
    assert_eq!(written.number, 0);
    bytes.truncate(written.length);
    bytes
}

/// Reading the exchange of a full PDU; memcpy copies the exchange.
pub fn reading() -> [Measured; 4] {
    let exchange = exchange(&inputs::full());
    let length = exchange.len();
    measure(
        &exchange,
        [
            &mut |input: &[u8], _: &mut [u8]| {
                black_box(raw::read_exchange(input));
            },
            &mut |input: &[u8], _: &mut [u8]| drop(black_box(reference::read_exchange(input))),
            &mut |input: &[u8], _: &mut [u8]| {
                black_box(plain::read_exchange(input));
            },
            &mut |input: &[u8], output: &mut [u8]| copy(input, output, length),
        ],
    )
}

/// Writing the exchange of a full PDU; memcpy copies the PDU.
pub fn writing() -> [Measured; 4] {
    let pdu = inputs::full();
    let length = pdu.len();
    measure(
        &pdu,
        [
            &mut |input: &[u8], output: &mut [u8]| {
                black_box(raw::write_exchange(input, output));
            },
            &mut |input: &[u8], output: &mut [u8]| {
                black_box(reference::write_exchange(input, output));
            },
            &mut |input: &[u8], output: &mut [u8]| {
                black_box(plain::write_exchange(input, output));
            },
            &mut |input: &[u8], output: &mut [u8]| copy(input, output, length),
        ],
    )
}

/// The plain version answers as the library does on what is measured, and on
/// every cut of it.
pub fn check_plain() {
    let (mut one, mut other) = ([0; 5_000], [0; 5_000]);
    for pdu in [inputs::example(), inputs::full()] {
        for length in 0..=pdu.len() {
            let cut = &pdu[..length];
            let library = raw::write_exchange(cut, &mut one);
            assert_eq!(library, plain::write_exchange(cut, &mut other));
            assert_eq!(one, other);
        }
        let exchange = exchange(&pdu);
        assert_eq!(exchange.len(), raw::write_exchange(&pdu, &mut one).length);
        for length in 0..=exchange.len() {
            let cut = &exchange[..length];
            assert_eq!(raw::read_exchange(cut), plain::read_exchange(cut));
        }
    }
}

//! Encrypted payloads: a PDU sealed, and opened.

use crate::inputs;
use crate::plain;
use crate::timing::{copy, measure, Measured, ROOM};
use mant::raw::{self, Key, SOURCE_WORDS};
use reference::Accepted;
use std::hint::black_box;

/// Document 002's key.
const KEY: Key = Key {
    bytes: *b"keep me secret!!",
};

/// A PDU like the example with so many bytes of payload.
fn pdu(payload: usize) -> Vec<u8> {
    inputs::pdu(0, &vec![7; payload])
}

/// The same sealed by the library under number 850.
fn sealed(payload: usize) -> Vec<u8> {
    let mut bytes = vec![0; ROOM];
    let written = raw::seal(KEY, 850, &pdu(payload), &mut bytes);
    assert_eq!(written.number, 0);
    bytes.truncate(written.length);
    bytes
}

/// A PDU with so many bytes of payload sealed; memcpy copies the PDU.
pub fn sealing(payload: usize) -> [Measured; 4] {
    let pdu = pdu(payload);
    let length = pdu.len();
    measure(
        &pdu,
        [
            &mut |input: &[u8], output: &mut [u8]| {
                black_box(raw::seal(black_box(KEY), 850, input, output));
            },
            &mut |input: &[u8], output: &mut [u8]| {
                black_box(reference::seal(black_box(&KEY.bytes), 850, input, output));
            },
            &mut |input: &[u8], output: &mut [u8]| {
                black_box(plain::seal(black_box(KEY), 850, input, output));
            },
            &mut |input: &[u8], output: &mut [u8]| copy(input, output, length),
        ],
    )
}

/// The sealed PDU opened against an empty record; memcpy copies it.
pub fn opening(payload: usize) -> [Measured; 4] {
    let pdu = sealed(payload);
    let length = pdu.len();
    measure(
        &pdu,
        [
            &mut |input: &[u8], output: &mut [u8]| {
                let mut record = [0; SOURCE_WORDS];
                black_box(raw::open(black_box(KEY), &mut record, input, output));
            },
            &mut |input: &[u8], output: &mut [u8]| {
                let mut record = Accepted::empty();
                let key = black_box(&KEY.bytes);
                black_box(reference::open(key, &mut record, input, output));
            },
            &mut |input: &[u8], output: &mut [u8]| {
                let mut record = [0; SOURCE_WORDS];
                black_box(plain::open(black_box(KEY), &mut record, input, output));
            },
            &mut |input: &[u8], output: &mut [u8]| copy(input, output, length),
        ],
    )
}

/// One pass of OpenSSL's counter mode and one of its SHA-1 over so many bytes,
/// which is less than sealing them; nothing where it is not installed.
#[cfg(openssl)]
pub fn openssl(payload: usize) -> Option<Measured> {
    let bytes = vec![7; payload + 4];
    let first = [3, 0xE8, 0, 3, 82, 0, 0, 0, 0, 0, 0, 0, 0, 0, 0, 0];
    let [measured] = measure(
        &bytes,
        [&mut |input: &[u8], output: &mut [u8]| {
            black_box(crate::openssl::sha1(input));
            crate::openssl::counter_mode(black_box(&KEY.bytes), &first, input, output);
        }],
    );
    Some(measured)
}

/// OpenSSL is not installed.
#[cfg(not(openssl))]
pub fn openssl(_: usize) -> Option<Measured> {
    None
}

/// The plain version answers as the library does on what is measured, and on
/// every cut of it.
pub fn check_plain() {
    let (mut one, mut other) = ([0; 5_000], [0; 5_000]);
    for payload in [0, 11, 64, 4_088, 4_089] {
        let pdu = pdu(payload);
        for number in [0, 850, (1 << 24) - 1, 1 << 24] {
            let library = raw::seal(KEY, number, &pdu, &mut one);
            assert_eq!(library, plain::seal(KEY, number, &pdu, &mut other));
            assert_eq!(one, other);
        }
    }
    for payload in [0, 11, 64] {
        let pdu = sealed(payload);
        let mut records = [[0; SOURCE_WORDS]; 2];
        let [first, second] = &mut records;
        for length in (0..=pdu.len()).chain([pdu.len()]) {
            let cut = &pdu[..length];
            let library = raw::open(KEY, first, cut, &mut one);
            assert_eq!(library, plain::open(KEY, second, cut, &mut other));
            assert_eq!((one, &first), (other, &second));
        }
        assert_eq!(first[..3], [1, 1000, 850]);
    }
}

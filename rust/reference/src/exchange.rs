//! 02, W-202: a PDU exchanged with a separate decoder, in the elements of
//! document 003, section 3; numbers 57, 58, 59 and 63.

use crate::header::read;
use crate::numbers::{
    DONE, ELEMENT_CUT, ELEMENT_TOO_DEEP, NOT_AN_EXCHANGE, NOT_SPLIT_AT_HEADER, OUTPUT_SHORT,
};
use crate::octets::{bit, word, Cursor};
use std::ops::Range;

/// A PDU of 4,615 bytes makes an exchange of so many.
pub const MOST_EXCHANGE: usize = 4_626;

/// The type of the element that is the exchange.
const FORWARD_PDU: usize = 20;
/// The type of the header's element.
const PDU_HEADER: usize = 1024;
/// The type of the payload's element.
const PDU_PAYLOAD: usize = 1025;
/// The types whose values are elements.
const RUNS: [usize; 3] = [10, 11, FORWARD_PDU];
/// So many levels deep at most.
const MOST_LEVELS: usize = 4;

/// Where header and payload lie in the input.
#[derive(Clone, Debug, PartialEq, Eq)]
pub struct Exchange {
    /// The value of type 1024.
    pub header: Range<usize>,
    /// The value of type 1025.
    pub payload: Range<usize>,
}

/// An element, its value shown as places of the input.
#[derive(Clone, Debug, PartialEq, Eq)]
pub struct Element {
    /// Its type.
    pub type_number: usize,
    /// Its value, which ends where the element does.
    pub value: Range<usize>,
}

/// An element, and those of its value if that is a run.
struct Held {
    element: Element,
    inner: Vec<Held>,
}

/// Reads an exchange. The whole input is judged as a run first (57, 58), then
/// 59, then 1 to 6 on header and payload joined, then 63.
pub fn read_exchange(bytes: &[u8]) -> Result<Exchange, u8> {
    let elements = read_run(bytes, 0..bytes.len(), 1)?;
    let exchange = only(&elements, FORWARD_PDU)?;
    if elements.len() != 1 {
        return Err(NOT_AN_EXCHANGE);
    }
    let header = only(&exchange.inner, PDU_HEADER)?.element.value.clone();
    let payload = only(&exchange.inner, PDU_PAYLOAD)?.element.value.clone();
    let joined = [&bytes[header.clone()], &bytes[payload.clone()]].concat();
    let pdu = read(&joined)?;
    if pdu.pdu_length() != joined.len() || pdu.length() != header.len() {
        return Err(NOT_SPLIT_AT_HEADER);
    }
    Ok(Exchange { header, payload })
}

/// The elements of a run, in their order, or the fault of the first of them
/// that has one, those inside them counted where they begin.
fn read_run(bytes: &[u8], part: Range<usize>, level: usize) -> Result<Vec<Held>, u8> {
    let mut place = part.start;
    let mut elements = vec![];
    while place < part.end {
        if level > MOST_LEVELS {
            return Err(ELEMENT_TOO_DEEP);
        }
        let element = element_at(&bytes[..part.end], place)?;
        place = element.value.end;
        let inner = match RUNS.contains(&element.type_number) {
            true => read_run(bytes, element.value.clone(), level + 1)?,
            false => vec![],
        };
        elements.push(Held { element, inner });
    }
    Ok(elements)
}

/// The element that begins at a place of the bytes, or 57 where none ends
/// within them.
pub fn element_at(bytes: &[u8], place: usize) -> Result<Element, u8> {
    let mut rest = Cursor::new(bytes, place.min(bytes.len()), ELEMENT_CUT);
    let type_number = read_number(&mut rest)?;
    let length = read_number(&mut rest)?;
    rest.take(length)?;
    let end = bytes.len() - rest.left();
    Ok(Element {
        type_number,
        value: end - length..end,
    })
}

/// A type or a length: one byte, or two where the top bit is set.
fn read_number(rest: &mut Cursor) -> Result<usize, u8> {
    let first = rest.byte()?;
    if !bit(first, 7) {
        return Ok(usize::from(first));
    }
    let second = rest.byte()?;
    Ok(usize::from(word(first & 127, second)))
}

/// The element of this type, there exactly once.
fn only(elements: &[Held], type_number: usize) -> Result<&Held, u8> {
    let mut found = elements
        .iter()
        .filter(|held| held.element.type_number == type_number);
    match (found.next(), found.next()) {
        (Some(held), None) => Ok(held),
        _ => Err(NOT_AN_EXCHANGE),
    }
}

/// Writes the exchange of the PDU at the start of the bytes: 1 to 6, then 14
/// by the exchange's length. Bytes past the exchange's end are kept. Gives the
/// number and the length written.
pub fn write_exchange(bytes: &[u8], out: &mut [u8]) -> (u8, usize) {
    let pdu = match read(bytes) {
        Ok(pdu) => pdu,
        Err(number) => return (number, 0),
    };
    let header = element(PDU_HEADER, &bytes[..pdu.length()]);
    let payload = element(PDU_PAYLOAD, pdu.payload(bytes));
    let exchange = element(FORWARD_PDU, &[header, payload].concat());
    if out.len() < exchange.len() {
        return (OUTPUT_SHORT, 0);
    }
    out[..exchange.len()].copy_from_slice(&exchange);
    (DONE, exchange.len())
}

/// An element's bytes.
fn element(type_number: usize, value: &[u8]) -> Vec<u8> {
    let mut bytes = shorter(type_number);
    bytes.extend(shorter(value.len()));
    bytes.extend(value);
    bytes
}

/// A type or a length in the shorter form.
fn shorter(number: usize) -> Vec<u8> {
    if number <= 127 {
        return vec![number as u8];
    }
    vec![(128 + number / 256) as u8, (number % 256) as u8]
}

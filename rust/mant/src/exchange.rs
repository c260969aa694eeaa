//! PDUs exchanged with a separate decoder (02, W-202).

use crate::raw::{self, EXCHANGE_LIMIT, EXCHANGE_TYPE};
use crate::{length, Refusal};

/// The two parts of a PDU in an exchange that was read.
#[derive(Clone, Copy, Debug, PartialEq, Eq)]
pub struct Exchange<'a> {
    /// Its header.
    pub header: &'a [u8],
    /// Its payload.
    pub payload: &'a [u8],
}

impl Exchange<'_> {
    /// The most bytes of an exchange that is written. One that is read may be
    /// longer, with other elements in it.
    pub const LIMIT: usize = EXCHANGE_LIMIT;
    /// The type of an exchange.
    pub const TYPE: u16 = EXCHANGE_TYPE;
}

/// An element of a run.
#[derive(Clone, Copy, Debug, PartialEq, Eq)]
pub struct Element<'a> {
    /// Its type.
    pub type_number: u16,
    /// Its value, which is a run of its own for types 10, 11 and 20.
    pub value: &'a [u8],
    /// The element from its first byte to its last.
    pub bytes: &'a [u8],
}

/// The elements of a run, made by [`elements`].
#[derive(Clone, Debug)]
pub struct Elements<'a> {
    run: &'a [u8],
    place: usize,
}

/// The elements of a run, in order. If one does not end within the bytes, 57
/// comes in its place and the walk ends.
///
/// A decoder sends other elements before the exchange (document 003, section
/// 10.1), so find the exchange first:
///
/// ```
/// use mant::{elements, read_exchange, Exchange};
///
/// let run = [0x75, 1, 1, 20, 12, 0x84, 0, 6, 0, 0, 0, 0, 3, 0xE8, 0x84, 1, 0];
/// for element in elements(&run) {
///     let element = element?;
///     if element.type_number == Exchange::TYPE {
///         assert_eq!(read_exchange(element.bytes)?.header, &run[8..14]);
///     }
/// }
/// # Ok::<(), mant::Refusal>(())
/// ```
#[must_use]
pub fn elements(run: &[u8]) -> Elements<'_> {
    Elements { run, place: 0 }
}

impl<'a> Iterator for Elements<'a> {
    type Item = Result<Element<'a>, Refusal>;

    fn next(&mut self) -> Option<Self::Item> {
        let start = self.place;
        if start == self.run.len() {
            return None;
        }
        let found = raw::element_at(self.run, start);
        if let Err(refusal) = Refusal::check(found.number) {
            self.place = self.run.len();
            return Some(Err(refusal));
        }
        self.place = found.end;
        Some(Ok(Element {
            type_number: found.type_number,
            value: &self.run[found.value_place..][..found.value_length],
            bytes: &self.run[start..found.end],
        }))
    }
}

impl std::iter::FusedIterator for Elements<'_> {}

/// The header and the payload of an exchange, which is all of the bytes.
/// Refusals: 57 or 58, 59, 1 to 6 of the two joined, 63.
///
/// ```
/// use mant::{read_exchange, write_exchange, Exchange};
///
/// let pdu = [0x02, 0x00, 0x10, 0x01, 0x03, 0xE8, 0x00, 0x2A];
/// let mut line = [0; Exchange::LIMIT];
/// let length = write_exchange(&pdu, &mut line)?;
/// let parts = read_exchange(&line[..length])?;
/// assert_eq!([parts.header, parts.payload].concat(), pdu);
/// # Ok::<(), mant::Refusal>(())
/// ```
pub fn read_exchange(bytes: &[u8]) -> Result<Exchange<'_>, Refusal> {
    let exchange = raw::read_exchange(bytes);
    Refusal::check(exchange.number)?;
    Ok(Exchange {
        header: &bytes[exchange.header_place..][..exchange.header_length],
        payload: &bytes[exchange.payload_place..][..exchange.payload_length],
    })
}

/// Writes the PDU at the start of the bytes as an exchange and returns its
/// length. Refusals: 1 to 6, 14.
pub fn write_exchange(bytes: &[u8], output: &mut [u8]) -> Result<usize, Refusal> {
    length(raw::write_exchange(bytes, output))
}

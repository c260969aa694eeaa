//! What the bytes of a PDU say.

use crate::raw;
use crate::{length, Bits, Refusal, EDITION_1_2};
use std::ops::Range;

/// The header of a PDU, as an edition shows it.
#[derive(Clone, Debug, PartialEq, Eq)]
pub struct Header {
    /// 0 best efforts, 1 reliable.
    pub protocol: u8,
    /// The time stamp request bit.
    pub time_stamp_request: bool,
    /// 0 to 15.
    pub port: u8,
    /// The three bits after the port.
    pub bits: Bits,
    /// The ACK bit.
    pub ack: bool,
    /// The added header bit.
    pub added_header: bool,
    /// 0 to 7.
    pub hop_limit: u8,
    /// Source address.
    pub source: u16,
    /// Destination address; without one the PDU is for everyone.
    pub destination: Option<u16>,
    /// PDU ID, for reliable service.
    pub pdu_id: Option<u8>,
    /// How many addresses the path has, if there is a path.
    pub path_count: Option<u8>,
    /// The last sender: the last path address, or the source if the path is
    /// empty. None, unknown, without a path; address 0 is an address.
    pub last_sender: Option<u16>,
    /// The payload lies here in the bytes.
    pub payload: Range<usize>,
}

/// The header of the PDU at the start of the bytes, as the edition shows it.
/// Bytes behind the PDU are ignored. Refusals: 17, then 1 to 6.
pub fn read(edition: u64, bytes: &[u8]) -> Result<Header, Refusal> {
    let header = raw::read(edition, bytes);
    Refusal::check(header.number)?;
    Ok(Header {
        protocol: header.protocol,
        time_stamp_request: header.time_stamp_request,
        port: header.port,
        bits: Bits::of(&header),
        ack: header.ack,
        added_header: header.added_header,
        hop_limit: header.hop_limit,
        source: header.source,
        destination: header.has_destination.then_some(header.destination),
        pdu_id: (header.protocol == 1).then_some(header.pdu_id),
        path_count: header.path_bit.then_some(header.path_count),
        last_sender: header.has_last_sender.then_some(header.last_sender),
        payload: header.header_length..header.pdu_length,
    })
}

/// The path address at a place, the first at 0, of the PDU at the start of the
/// bytes. None past the last one and if there is no PDU.
pub fn path_address(bytes: &[u8], place: usize) -> Option<u16> {
    let count = usize::from(raw::read(EDITION_1_2, bytes).path_count);
    (place < count).then(|| raw::path_address(bytes, place))
}

/// Whether the path of the PDU at the start of the bytes holds an address.
pub fn path_has(bytes: &[u8], address: u16) -> bool {
    raw::path_has(bytes, address)
}

/// Writes the PDU at the start of the bytes again from its fields, the same
/// bytes, and returns its length. Refusals: 17, 1 to 6, 14.
pub fn write_again(edition: u64, bytes: &[u8], output: &mut [u8]) -> Result<usize, Refusal> {
    length(raw::write_again(edition, bytes, output))
}

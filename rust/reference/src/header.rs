//! 01, "Header, byte by byte" and "Sizes"; numbers 1 to 6. 02, W-205.

use crate::numbers::{
    FEWER_THAN_6, HEADER_PAST_END, NO_DESTINATION, PAYLOAD_PAST_END, PROTOCOL, VERSION,
};
use crate::octets::{bit, word, Cursor};

/// Bytes 0 to 5, which every PDU has.
pub const FIXED_LENGTH: usize = 6;
/// 01, "Sizes": payload 0 to 4,095.
pub const MOST_PAYLOAD: usize = 4_095;
/// 01, "Sizes": path 0 to 255 addresses.
pub const MOST_PATH: usize = 255;
/// 01, "Sizes": a PDU is at most 4,615 bytes.
pub const MOST_PDU: usize = 4_615;

/// What reading shows of a PDU, every bit of its header. The version is not
/// kept, being 0.
#[derive(Clone, Debug, PartialEq, Eq)]
pub struct Header {
    /// 0 best efforts, 1 reliable.
    pub protocol: u8,
    /// The time stamp request bit, kept as it is.
    pub time_stamp_request: bool,
    /// 0 to 15.
    pub port: u8,
    /// The encrypted bit.
    pub encrypted: bool,
    /// The two reserved bits, 0 to 3.
    pub reserved: u8,
    /// The ACK bit.
    pub ack: bool,
    /// The added header bit.
    pub added_header: bool,
    /// 0 to 7.
    pub hop_limit: u8,
    /// Everything after the header, 0 to 4,095.
    pub payload_length: usize,
    /// Source address.
    pub source: u16,
    /// Destination address, if its bit is set.
    pub destination: Option<u16>,
    /// PDU ID, if protocol 1.
    pub pdu_id: Option<u8>,
    /// Path, if the path bit is set; its length is the path count.
    pub path: Option<Vec<u16>>,
}

impl Header {
    /// How many bytes the header takes.
    pub fn length(&self) -> usize {
        let destination = if self.destination.is_some() { 2 } else { 0 };
        let pdu_id = if self.pdu_id.is_some() { 1 } else { 0 };
        let path = self.path.as_ref().map_or(0, |path| 1 + 2 * path.len());
        FIXED_LENGTH + destination + pdu_id + path
    }

    /// How many bytes the whole PDU takes.
    pub fn pdu_length(&self) -> usize {
        self.length() + self.payload_length
    }

    /// 02, W-205: the last path address, or the source if the path is empty;
    /// unknown without the path bit.
    pub fn last_sender(&self) -> Option<u16> {
        let path = self.path.as_ref()?;
        Some(path.last().copied().unwrap_or(self.source))
    }

    /// The payload's part of the bytes that this header was read from.
    pub fn payload<'a>(&self, bytes: &'a [u8]) -> &'a [u8] {
        &bytes[self.length()..self.pdu_length()]
    }
}

/// Reads the PDU at the start of the bytes; what comes after it is not its
/// concern. Checks 1 to 6 in that order.
pub fn read(bytes: &[u8]) -> Result<Header, u8> {
    if bytes.len() < FIXED_LENGTH {
        return Err(FEWER_THAN_6);
    }
    if bytes[0] >> 6 != 0 {
        return Err(VERSION);
    }
    let protocol = (bytes[0] >> 3) & 7;
    if protocol > 1 {
        return Err(PROTOCOL);
    }
    let destination_present = bit(bytes[0], 0);
    if protocol == 1 && !destination_present {
        return Err(NO_DESTINATION);
    }
    let mut after = Cursor::new(bytes, FIXED_LENGTH, HEADER_PAST_END);
    let header = Header {
        protocol,
        time_stamp_request: bit(bytes[0], 2),
        port: bytes[1] >> 4,
        encrypted: bit(bytes[1], 3),
        reserved: (bytes[1] >> 1) & 3,
        ack: bit(bytes[1], 0),
        added_header: bit(bytes[2], 7),
        hop_limit: (bytes[2] >> 4) & 7,
        payload_length: usize::from(word(bytes[2] & 15, bytes[3])),
        source: word(bytes[4], bytes[5]),
        destination: read_if(destination_present, || after.word())?,
        pdu_id: read_if(protocol == 1, || after.byte())?,
        path: read_if(bit(bytes[0], 1), || read_path(&mut after))?,
    };
    if after.left() < header.payload_length {
        return Err(PAYLOAD_PAST_END);
    }
    Ok(header)
}

/// "Each only where called for".
fn read_if<T>(
    called_for: bool,
    read_field: impl FnOnce() -> Result<T, u8>,
) -> Result<Option<T>, u8> {
    if called_for {
        read_field().map(Some)
    } else {
        Ok(None)
    }
}

/// Path count and that many addresses.
fn read_path(after: &mut Cursor) -> Result<Vec<u16>, u8> {
    let count = after.byte()?;
    (0..count).map(|_| after.word()).collect()
}

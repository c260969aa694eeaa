//! A fresh PDU from settings and a payload.

use crate::raw::{self, EDITION_1_2};
use crate::{length, Refusal};

/// Settings of a fresh PDU. Edition, hop limit and port are wide, so that 263
/// arrives as 263 and is refused. The default is edition 1.2, and 0, none or
/// false in all else.
#[derive(Clone, Copy, Debug, PartialEq, Eq)]
pub struct Fresh {
    /// [`EDITION_1_1`](crate::EDITION_1_1) or [`EDITION_1_2`].
    pub edition: u64,
    /// Source address.
    pub source: u16,
    /// Destination address; without one the PDU is for everyone.
    pub destination: Option<u16>,
    /// 0 to 7; 7 is never lowered.
    pub hop_limit: u64,
    /// 0 to 15.
    pub port: u64,
    /// The time stamp request bit.
    pub time_stamp_request: bool,
    /// Every node that repeats the PDU adds its address.
    pub with_path: bool,
    /// Reliable service, which needs a destination.
    pub reliable: bool,
    /// Written for reliable service only.
    pub pdu_id: u8,
    /// The payload is encrypted already. Edition 1.1 has no such flag.
    pub encrypted: bool,
}

impl Default for Fresh {
    fn default() -> Fresh {
        Fresh {
            edition: EDITION_1_2,
            source: 0,
            destination: None,
            hop_limit: 0,
            port: 0,
            time_stamp_request: false,
            with_path: false,
            reliable: false,
            pdu_id: 0,
            encrypted: false,
        }
    }
}

/// Writes a fresh PDU with this payload and returns its length. Refusals: 17,
/// 10 to 13, 16, 14.
pub fn originate(fresh: &Fresh, payload: &[u8], output: &mut [u8]) -> Result<usize, Refusal> {
    let settings = raw::Fresh {
        edition: fresh.edition,
        source: fresh.source,
        has_destination: fresh.destination.is_some(),
        destination: fresh.destination.unwrap_or(0),
        hop_limit: fresh.hop_limit,
        port: fresh.port,
        time_stamp_request: fresh.time_stamp_request,
        with_path: fresh.with_path,
        reliable: fresh.reliable,
        pdu_id: fresh.pdu_id,
        encrypted: fresh.encrypted,
    };
    length(raw::originate(settings, payload, output))
}

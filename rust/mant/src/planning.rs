//! How often one report, and one command with its acknowledgements, can go out
//! at most; the sizes.

use crate::raw;
use crate::{Limits, Refusal};

/// The most transmissions that one fresh PDU with a path can cause, its first
/// sending included. `nodes` counts the nodes that repeat, without the
/// originator and the destination. Echo is on at every node, the originator
/// too, no two have the same address, and none takes a transmission twice. A
/// decoder that hands a frame over twice breaks that. None: 64 bits do not hold
/// it. Refusal: 10.
///
/// ```
/// assert_eq!(mant::most_transmissions(5, 3), Ok(Some(86)));
/// assert_eq!(mant::most_bytes(5, 3, 20), Ok(Some(2170)));
/// assert_eq!(mant::most_transmissions(5, 8), Err(mant::Refusal::HopLimitAbove7));
/// ```
pub fn most_transmissions(nodes: u64, hop_limit: u64) -> Result<Option<u64>, Refusal> {
    bound(raw::most_transmissions(nodes, hop_limit))
}

/// The most bytes of those transmissions, if the fresh PDU has this size. None:
/// 64 bits do not hold it. Refusal: 10.
pub fn most_bytes(nodes: u64, hop_limit: u64, size: u64) -> Result<Option<u64>, Refusal> {
    bound(raw::most_bytes(nodes, hop_limit, size))
}

/// The most transmissions of one command, sent again at most `tries` times, and
/// of its acknowledgements: its destination acknowledges every copy that
/// arrives. `answer_nodes` and `answer_hop_limit` are the acknowledgement's.
/// What [`most_transmissions`] asks holds for both, and neither the originator
/// nor the destination is counted. None: 64 bits do not hold it. Refusal: 10.
///
/// ```
/// assert_eq!(mant::most_for_command(0, 3, 3, 3, 3), Ok(Some(272)));
/// assert_eq!(mant::most_for_command(3, 5, 3, 5, 3), Ok(Some(4 * 7_482)));
/// ```
pub fn most_for_command(
    tries: u64,
    nodes: u64,
    hop_limit: u64,
    answer_nodes: u64,
    answer_hop_limit: u64,
) -> Result<Option<u64>, Refusal> {
    bound(raw::most_for_command(
        tries,
        nodes,
        hop_limit,
        answer_nodes,
        answer_hop_limit,
    ))
}

/// The sizes, as the library has them.
pub fn limits() -> Limits {
    raw::limits()
}

fn bound(bound: raw::Bound) -> Result<Option<u64>, Refusal> {
    Refusal::check(bound.number).map(|()| (!bound.too_large).then_some(bound.value))
}

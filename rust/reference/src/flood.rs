//! 01, "Checked by hand", last line: how often one fresh PDU with a path can
//! go out among N nodes with echo on, and how many bytes that is. The node at
//! its source address hears too, and is not one of the N (02, W-203): it drops
//! what it hears, so no path has its address.
//!
//! Each transmission is told apart by its path. With echo on a path never
//! holds an address twice, and each repeat adds one address, so a path of k
//! entries is one of N (N-1) ... (N-k+1) arrangements. The bound adds these
//! up, k from 0 (the fresh PDU itself) to the longest path.

use crate::header::MOST_PATH;

/// The hop limit that is kept (01, "One PDU at one node": "7 kept").
const HOP_KEPT: u64 = 7;

/// The longest path that can go out: no more entries than nodes or than a
/// path holds (38), and below hop 7 no more than the hop setting. None for a
/// hop setting that origination refuses (10).
pub fn longest_path(nodes: u64, hop: u64) -> Option<u64> {
    let most = nodes.min(MOST_PATH as u64);
    match hop {
        0..=6 => Some(most.min(hop)),
        HOP_KEPT => Some(most),
        _ => None,
    }
}

/// The most times the PDU can go out, the fresh one counted. None where the
/// hop setting is above 7 or the number doesn't fit in 128 bits.
pub fn bound(nodes: u64, hop: u64) -> Option<u128> {
    sum_over_paths(nodes, hop, |_| 1)
}

/// The most bytes that can go out if the fresh PDU has `fresh_length`: each
/// path entry adds 2 bytes. None as for the bound.
pub fn bytes_bound(nodes: u64, hop: u64, fresh_length: u64) -> Option<u128> {
    sum_over_paths(nodes, hop, |entries| {
        u128::from(fresh_length) + 2 * u128::from(entries)
    })
}

/// The most times that a command and its acknowledgements can go out (02,
/// W-210): it is sent once and then `tries` times, and each time that it goes
/// out it may arrive and be acknowledged. None as for the bound, of either.
pub fn command_bound(tries: u64, command: (u64, u64), answer: (u64, u64)) -> Option<u128> {
    let once = bound(command.0, command.1)?;
    let replies = once.checked_mul(bound(answer.0, answer.1)?)?;
    (u128::from(tries) + 1).checked_mul(once.checked_add(replies)?)
}

/// Adds up, over every path that can go out, what one path of so many entries
/// weighs.
fn sum_over_paths(nodes: u64, hop: u64, weight: impl Fn(u64) -> u128) -> Option<u128> {
    let longest = longest_path(nodes, hop)?;
    let mut arrangements: u128 = 1;
    let mut sum = weight(0);
    for entries in 1..=longest {
        let choices = u128::from(nodes - (entries - 1));
        arrangements = arrangements.checked_mul(choices)?;
        sum = sum.checked_add(arrangements.checked_mul(weight(entries))?)?;
    }
    Some(sum)
}

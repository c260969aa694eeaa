//! 01, "Checked by hand", last line: the bound.

use reference::*;

/// The bound against a count of the arrangements one by one.
#[test]
fn bound_counts_arrangements() {
    fn arrangements(nodes: u64, used: &mut Vec<u64>, more: u64) -> u128 {
        let mut count = 1;
        for node in 0..nodes {
            if more > 0 && !used.contains(&node) {
                used.push(node);
                count += arrangements(nodes, used, more - 1);
                used.pop();
            }
        }
        count
    }
    for nodes in 0..=6 {
        for hop in 0..=7 {
            let more = if hop == 7 { nodes } else { hop };
            let count = arrangements(nodes, &mut Vec::new(), more);
            assert_eq!(bound(nodes, hop), Some(count));
        }
    }
}

/// 10 transmissions for N = 3, h = 2: one of 9 bytes, three of 11, six of 13.
#[test]
fn bytes_of_the_bound() {
    assert_eq!(bytes_bound(3, 2, 9), Some(9 + 3 * 11 + 6 * 13));
    assert_eq!(bytes_bound(5, 0, 9), Some(9));
    assert_eq!(bytes_bound(0, 7, 4_105), Some(4_105));
}

/// Where there is no such PDU, and where the number doesn't fit.
#[test]
fn bound_at_its_limits() {
    assert_eq!(bound(3, 8), None);
    assert!(bound(65_536, 6).is_some());
    assert!(bound(33, 7).is_some());
    assert_eq!(bound(34, 7), None);
    assert_eq!(bound(u64::MAX, 7), None);
}

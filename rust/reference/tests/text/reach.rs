//! 02, W-208, and how often a report goes out, by flooding one among nodes of
//! the model.

use crate::{node, ASKED};
use reference::*;
use std::collections::BTreeMap;

/// What a flood leads to.
struct Flooded {
    /// For each node that is delivered the report, the least path count that
    /// it is delivered with.
    least: BTreeMap<u16, usize>,
    /// Each transmission: its sender, and how many bytes it has.
    sent: Vec<(u16, u64)>,
}

/// Floods a report. Every node but the one that has failed takes once each
/// transmission of a node that it hears; the latest transmission is taken
/// first, so that long ways are played before short ones.
fn flooded(network: &Network, failed: Option<u16>) -> Flooded {
    let mut fresh = [0; MOST_PDU];
    let settings = Origination {
        path: true,
        hop: network.hop_limit as u64,
        source: network.lines[0][0],
        ..ASKED
    };
    let (number, length) = originate(&settings, b"rain", &mut fresh);
    assert_eq!(number, 0);
    let mut waiting = vec![fresh[..length].to_vec()];
    let (mut least, mut sent) = (BTreeMap::new(), vec![]);
    while let Some(pdu) = waiting.pop() {
        let path = read(&pdu).unwrap().path.unwrap();
        let sender = path.last().copied().unwrap_or(settings.source);
        sent.push((sender, pdu.len() as u64));
        for node in hearers(network, sender) {
            if Some(node) == failed {
                continue;
            }
            let (count, repeated) = heard(node, !network.mute.contains(&node), &pdu);
            waiting.extend(repeated);
            if let (Some(count), true) = (count, node != settings.source) {
                let known = least.entry(node).or_insert(count);
                *known = count.min(*known);
            }
        }
    }
    Flooded { least, sent }
}

/// The nodes that hear a sender, each once.
fn hearers(network: &Network, sender: u16) -> Vec<u16> {
    let lines = network.lines.iter().filter(|line| line[0] == sender);
    let mut nodes: Vec<u16> = lines.flat_map(|line| line[1..].iter().copied()).collect();
    nodes.sort_unstable();
    nodes.dedup();
    nodes
}

/// What a node with echo on and empty lists, which repeats or not, makes of a
/// transmission: the path count if it delivers it, and what it sends. Nodes
/// have edition 1.1 or 1.2 (02, W-209), here by their address.
fn heard(own: u16, repeating: bool, sent: &[u8]) -> (Option<usize>, Option<Vec<u8>>) {
    let edition = [EDITION_1_1, EDITION_1_2][usize::from(own % 2)];
    let mut out = [0; MOST_PDU];
    let settings = Settings {
        edition,
        repeating,
        ..node(own)
    };
    let answer = hear(&settings, &Lists::EMPTY, sent, &mut out);
    let count = read(sent).unwrap().path.unwrap().len();
    let (place, length) = answer.delivered;
    if answer.delivery == 0 {
        assert_eq!(&sent[place..place + length], b"rain");
    }
    let repeated = out[..answer.repeated_length].to_vec();
    (
        (answer.delivery == 0).then_some(count),
        (answer.repeat == 0).then_some(repeated),
    )
}

/// What the shortest chains say of the same.
fn by_chains(network: &Network, failed: Option<u16>) -> BTreeMap<u16, usize> {
    let nodes = network.nodes();
    let place = failed.map(|node| nodes.iter().position(|other| *other == node).unwrap());
    let lengths = shortest_chains(network, place);
    let each = nodes.into_iter().zip(lengths);
    each.filter(|(_, length)| delivered(network.hop_limit, *length))
        .map(|(node, length)| (node, length.unwrap() - 1))
        .collect()
}

/// Whether the flood delivers what the chains say, and goes out as often, in
/// as many bytes and from the same nodes as the count says.
fn compare(network: &Network) {
    let Flooded { least, sent } = flooded(network, None);
    assert_eq!(least, by_chains(network, None), "{network:?}");
    let size = sent[0].1;
    let found = airtime(network, size, 1_000).unwrap();
    let bytes = |of: &dyn Fn(u16) -> bool| -> Vec<u64> {
        let mine = sent.iter().filter(|(sender, _)| of(*sender));
        mine.map(|(_, bytes)| *bytes).collect()
    };
    let all = bytes(&|_| true);
    let wanted = (all.len() as u64, all.iter().sum());
    assert_eq!((found.times, found.bytes), wanted, "{network:?}");
    for (place, node) in network.nodes().into_iter().enumerate() {
        let own = bytes(&|sender| sender == node);
        let wanted = (own.len() as u64, own.iter().sum());
        let counted = (found.times_by[place], found.bytes_by[place]);
        assert_eq!(counted, wanted, "{node} in {network:?}");
    }
    let times = found.times;
    assert!(airtime(network, size, times).is_none() && airtime(network, size, times + 1).is_some());
}

#[test]
fn eight_nodes_in_a_row() {
    let lines: Vec<Vec<u16>> = (1..8).map(|node| vec![node, node + 1]).collect();
    for hop_limit in 0..8 {
        let network = Network {
            hop_limit,
            lines: lines.clone(),
            mute: vec![],
        };
        let last = if hop_limit == 7 { 6 } else { hop_limit };
        let wanted = (0..=last).map(|count| (count as u16 + 2, count)).collect();
        assert_eq!(flooded(&network, None).least, wanted);
        compare(&network);
    }
}

#[test]
fn the_shorter_way_counts_though_the_longer_is_played_first() {
    let lines = vec![vec![1, 5, 2], vec![2, 3], vec![3, 4], vec![5, 4]];
    let network = Network {
        hop_limit: 3,
        lines,
        mute: vec![],
    };
    assert_eq!(flooded(&network, None).least.get(&4), Some(&1));
    compare(&network);
}

/// Every network of four nodes, with some that do not repeat, at hop limits 0,
/// 1, 2 and 7; and with one of them failed.
#[test]
fn all_networks_of_four_nodes() {
    for hearings in 0_u32..1 << 12 {
        let mut bits = (0..12).map(|bit| hearings >> bit & 1 == 1);
        let mut lines = vec![];
        for node in 1..=4_u16 {
            let others = (1..=4).filter(|other| *other != node && bits.next() == Some(true));
            lines.push([node].into_iter().chain(others).collect());
        }
        for mute in [vec![], vec![2], vec![1, 3], vec![2, 4]] {
            for hop_limit in [0, 1, 2, 7] {
                let (lines, mute) = (lines.clone(), mute.clone());
                let network = Network {
                    hop_limit,
                    lines,
                    mute,
                };
                compare(&network);
                let without = flooded(&network, Some(3)).least;
                assert_eq!(without, by_chains(&network, Some(3)), "{network:?}");
            }
        }
    }
}

/// Where every node hears every other, the bound is reached.
#[test]
fn the_worst_network() {
    for (nodes, hop_limit) in [(2, 1), (4, 2), (5, 3), (5, 7), (1, 7)] {
        let others = |node| (1..=nodes + 1).filter(move |other| *other != node);
        let lines = (1..=nodes + 1).map(|node| [node].into_iter().chain(others(node)).collect());
        let network = Network {
            hop_limit,
            lines: lines.collect(),
            mute: vec![],
        };
        let found = airtime(&network, 20, 10_000).unwrap();
        let (nodes, hop_limit) = (u64::from(nodes), hop_limit as u64);
        assert_eq!(Some(u128::from(found.times)), bound(nodes, hop_limit));
        assert_eq!(
            Some(u128::from(found.bytes)),
            bytes_bound(nodes, hop_limit, 20)
        );
    }
}

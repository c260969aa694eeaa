//! Networks (02, W-208): who hears whom, and who does not repeat.

use crate::random::Random;
use reference::Network;

/// A network of one to so many nodes of different addresses. Hearings are
/// rare, usual or frequent; a node may hear itself, have no line, or not
/// repeat. In some each node is heard by the next, so that chains are long. At
/// hop limit 7, where a report goes out most often, a large network mostly has
/// rare hearings.
pub fn network(random: &mut Random, most: usize) -> Network {
    let count = random.between(1, most);
    let nodes = addresses(random, count);
    let hop_limit = random.below(8);
    let often = if hop_limit == 7 && count > 20 && !random.one_in(8) {
        4
    } else {
        [1, 2, 4][random.below(3)]
    };
    let (in_row, rare) = (random.one_in(6), often * count.div_ceil(4));
    let (mutes, mut lines, mut mute) = ([1, 3, count + 1][random.below(3)], vec![], vec![]);
    for (place, node) in nodes.iter().enumerate() {
        let mut line = vec![*node];
        if in_row {
            line.extend(nodes.get(place + 1));
        }
        for other in &nodes {
            if random.one_in(if in_row { 8 * count } else { rare }) {
                line.push(*other);
            }
        }
        let repeats = mutes == 1 || !random.one_in(mutes);
        if !repeats {
            mute.push(*node);
        }
        if lines.is_empty() || line.len() > 1 || !repeats || random.one_in(2) {
            lines.push(line);
        }
    }
    Network {
        hop_limit,
        lines,
        mute,
    }
}

/// So many addresses, each once.
fn addresses(random: &mut Random, count: usize) -> Vec<u16> {
    let mut nodes: Vec<u16> = vec![];
    while nodes.len() < count {
        let node = random.below(65_536) as u16;
        if !nodes.contains(&node) {
            nodes.push(node);
        }
    }
    nodes
}

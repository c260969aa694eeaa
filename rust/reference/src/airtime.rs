//! How often a report goes out on a network of which it is known who hears
//! whom: once for each way from the originator, through nodes that repeat it,
//! that has no node twice and is no longer than the hop limit allows. A
//! transmission is told apart by its path (01, "Checked by hand", last line).

use crate::network::Network;

/// How often the report goes out, and how many bytes that is: in all, and from
/// each node in the order of the nodes.
#[derive(Clone, Debug, PartialEq, Eq)]
pub struct Airtime {
    /// How often it goes out.
    pub times: u64,
    /// How many bytes that is.
    pub bytes: u64,
    /// How often each node sends it.
    pub times_by: Vec<u64>,
    /// How many bytes each node sends.
    pub bytes_by: Vec<u64>,
}

/// What a report of that size when fresh leads to; None where it goes out so
/// many times, which are enough, or more.
pub fn airtime(network: &Network, size: u64, enough: u64) -> Option<Airtime> {
    let (marks, hearings) = (network.marks(), network.hearings());
    count(&marks, &hearings, 0, network.hop_limit, size, enough)
}

/// The same of a network by its nodes' places, for any originator. A hearing
/// of a place that no node has says nothing.
pub fn count(
    marks: &[bool],
    hearings: &[(usize, usize)],
    from: usize,
    hop_limit: usize,
    size: u64,
    enough: u64,
) -> Option<Airtime> {
    let nodes = marks.len();
    let longest = if hop_limit == 7 { nodes } else { hop_limit };
    let heard_by = heard_by(marks, hearings, from);
    let mut found = Airtime {
        times: 0,
        bytes: 0,
        times_by: vec![0; nodes],
        bytes_by: vec![0; nodes],
    };
    let mut under_way = vec![false; nodes];
    let mut way: Vec<(usize, usize)> = vec![];
    let mut sent = Some(from);
    loop {
        if let Some(node) = sent.take() {
            under_way[node] = true;
            found.add(node, size + 2 * way.len() as u64);
            way.push((node, 0));
            if found.times >= enough {
                return None;
            }
        }
        let steps = way.len();
        let Some((node, next)) = way.last_mut() else {
            return Some(found);
        };
        if steps > longest || *next == heard_by[*node].len() {
            under_way[*node] = false;
            way.pop();
            continue;
        }
        let other = heard_by[*node][*next];
        *next += 1;
        sent = (!under_way[other]).then_some(other);
    }
}

impl Airtime {
    /// One transmission more.
    fn add(&mut self, node: usize, bytes: u64) {
        self.times += 1;
        self.bytes += bytes;
        self.times_by[node] += 1;
        self.bytes_by[node] += bytes;
    }
}

/// Of each node those that hear it and repeat what they hear, each once.
fn heard_by(marks: &[bool], hearings: &[(usize, usize)], from: usize) -> Vec<Vec<usize>> {
    let mut heard_by = vec![vec![]; marks.len()];
    for (sender, node) in hearings {
        let is_node = *sender < marks.len() && *node < marks.len();
        if is_node && *node != from && !marks[*node] && !heard_by[*sender].contains(node) {
            heard_by[*sender].push(*node);
        }
    }
    heard_by
}

//! Whom a report reaches on a network, and how often it goes out there.

use crate::raw::{self, Lent};
use crate::Refusal;

/// A network of which it is known who hears whom, for the reports of one node,
/// the originator. A node is its place, from 0 on.
///
/// The results hold if the report is fresh and has a path; every node takes
/// each transmission that it hears once, and no other; echo is on at every
/// node, and no two have the same address; lists have no fault, and outputs
/// have room. If transmissions are lost, the report goes out no more often. A
/// node whose lists stop the report is not delivered it, and a report with a
/// destination is delivered to that node alone. Include an uncertain hearing
/// for the counts, and leave it out for chains and failures.
///
/// Gauge 0 is heard by the repeaters 1 and 2, which hear each other. Base
/// station 3 hears both and does not repeat:
///
/// ```
/// use mant::Network;
///
/// let hearings = [[0, 1], [0, 2], [1, 2], [2, 1], [1, 3], [2, 3]];
/// let network = Network::new(&hearings, &[0, 0, 0, 1], 0).unwrap();
/// let chains = network.chains(None);
/// assert_eq!((chains.length(3), chains.least_hop_limit()), (Some(2), Some(1)));
/// assert_eq!(chains.path_count(3, 1), Some(1));
/// let without = network.chains(Some(1));
/// assert_eq!((without.length(3), without.least_hop_limit()), (Some(2), Some(1)));
///
/// let mut table = [0; Network::TABLE];
/// let times = network.transmissions(3, 1_000, &mut table)?.unwrap();
/// assert_eq!((times.total, times.each()), (5, &[1, 2, 2, 0][..]));
/// let bytes = network.bytes(3, 20, 10_000, &mut table)?.unwrap();
/// assert_eq!(bytes.total, 112);
/// assert_eq!(network.transmissions(3, 5, &mut table)?, None);
/// # Ok::<(), mant::Refusal>(())
/// ```
#[derive(Clone, Copy, Debug, PartialEq, Eq)]
pub struct Network<'a> {
    hearings: &'a [[u8; 2]],
    marks: &'a [u8],
    from: usize,
}

/// The shortest chains from the originator.
#[derive(Clone, Copy, Debug, PartialEq, Eq)]
pub struct Chains {
    lengths: [u8; Network::LIMIT],
    nodes: usize,
    failed: usize,
}

/// How often a report goes out, or how many bytes that is, in all and from each
/// node.
#[derive(Clone, Copy, Debug, PartialEq, Eq)]
pub struct Airtime {
    /// In all.
    pub total: u64,
    each: [u64; Network::LIMIT],
    nodes: usize,
}

impl<'a> Network<'a> {
    /// The most nodes.
    pub const LIMIT: usize = raw::NODE_LIMIT;
    /// The bytes of the table that a count is lent.
    pub const TABLE: usize = raw::AIRTIME_TABLE;

    /// The network of these hearings, each a sender's place and the place of a
    /// node that hears it. `marks` has one byte for each node, not 0 if it does
    /// not repeat the report: repeating is off, its lists stop it, or the
    /// report is for it. The originator's is ignored. None: there are more than
    /// 255 nodes, or the originator is none of them.
    pub fn new(hearings: &'a [[u8; 2]], marks: &'a [u8], originator: usize) -> Option<Self> {
        let served = marks.len() <= Self::LIMIT && originator < marks.len();
        served.then_some(Self {
            hearings,
            marks,
            from: originator,
        })
    }

    /// The shortest chains from the originator through nodes that repeat the
    /// report, avoiding the node that has failed, if any. A node that loses its
    /// chain when another fails is cut off by that failure.
    pub fn chains(&self, failed: Option<usize>) -> Chains {
        let mut chains = Chains {
            lengths: [raw::NO_CHAIN; Self::LIMIT],
            nodes: self.marks.len(),
            failed: failed.unwrap_or(raw::NO_NODE),
        };
        let lengths = &mut chains.lengths[..chains.nodes];
        let pairs = self.hearings.as_flattened();
        raw::chain_lengths(pairs, self.marks, self.from, chains.failed, lengths);
        chains
    }

    /// How often the report goes out, its first sending included, and how often
    /// each node sends it. None: the count reached `enough`, which bounds the
    /// time. Refusal: 10.
    pub fn transmissions(
        &self,
        hop_limit: u64,
        enough: u64,
        table: &mut [u8; Network::TABLE],
    ) -> Result<Option<Airtime>, Refusal> {
        let pairs = self.hearings.as_flattened();
        self.counted(table, |lent| {
            raw::network_transmissions(pairs, self.from, hop_limit, enough, lent)
        })
    }

    /// The bytes of those transmissions, if the fresh report has this size.
    /// None and the refusal as there.
    pub fn bytes(
        &self,
        hop_limit: u64,
        size: u16,
        enough: u64,
        table: &mut [u8; Network::TABLE],
    ) -> Result<Option<Airtime>, Refusal> {
        let pairs = self.hearings.as_flattened();
        self.counted(table, |lent| {
            raw::network_bytes(pairs, self.from, hop_limit, size.into(), enough, lent)
        })
    }

    fn counted(
        &self,
        table: &mut [u8],
        count: impl FnOnce(Lent) -> raw::Airtime,
    ) -> Result<Option<Airtime>, Refusal> {
        let nodes = self.marks.len();
        let (mut marks, mut each) = ([0; Self::LIMIT], [0; Self::LIMIT]);
        marks[..nodes].copy_from_slice(self.marks);
        let found = count(Lent {
            marks: &mut marks[..nodes],
            counts: &mut each[..nodes],
            table,
        });
        Refusal::check(found.number)?;
        let total = found.value;
        Ok((!found.enough).then_some(Airtime { total, each, nodes }))
    }
}

impl Chains {
    /// How many hearings the shortest chain to a node has; 0 for the
    /// originator. None: no chain leads to it, or there is no such node.
    pub fn length(&self, node: usize) -> Option<u8> {
        let length = self.lengths[..self.nodes].get(node).copied();
        length.filter(|length| *length != raw::NO_CHAIN)
    }

    /// The smallest path count with which a report of this hop limit is
    /// delivered to a node. None: it is not, nor ever to the originator.
    pub fn path_count(&self, node: usize, hop_limit: u8) -> Option<u8> {
        let count = self.length(node)?.checked_sub(1)?;
        (hop_limit == 7 || count <= hop_limit).then_some(count)
    }

    /// The least hop limit that reaches every node but the originator and the
    /// failed one. None: one of them has no chain.
    pub fn least_hop_limit(&self) -> Option<u8> {
        let mut lengths = self.lengths;
        let lengths = &mut lengths[..self.nodes];
        if let Some(failed) = lengths.get_mut(self.failed) {
            *failed = 0;
        }
        let least = raw::least_hop_limit(lengths);
        (least != raw::NO_HOP_LIMIT).then_some(least)
    }
}

impl Airtime {
    /// From each node, by its place.
    pub fn each(&self) -> &[u64] {
        &self.each[..self.nodes]
    }
}

//! Whom a report reaches on a network, and how often it goes out there; how
//! often one report, and one command with its acknowledgements, can go out at
//! most; the sizes.

/// `MANT_NODE_LIMIT`.
pub const NODE_LIMIT: usize = 255;
/// `MANT_AIRTIME_TABLE`.
pub const AIRTIME_TABLE: usize = 65_280;
/// `MANT_NO_CHAIN`.
pub const NO_CHAIN: u8 = 255;
/// `MANT_NO_NODE`.
pub const NO_NODE: usize = 255;
/// `MANT_NO_HOP_LIMIT`.
pub const NO_HOP_LIMIT: u8 = 8;

/// How often a report goes out on a network, or how many bytes that is. The
/// value is 0 unless the number is 0, the network served and the value not
/// enough.
/// In C `MantAirtime`.
#[repr(C)]
#[derive(Clone, Copy, Debug, Default, PartialEq, Eq)]
pub struct Airtime {
    /// 0, or 10 where the hop limit is above 7.
    pub number: u8,
    /// There are at most 255 nodes, the originator is one of them, and counts
    /// and table have the room.
    pub served: bool,
    /// The value is not below what the caller said is enough.
    pub enough: bool,
    /// How many; 0 where it is not told.
    pub value: u64,
}

/// A bound. Number 10: the hop limit is above 7. Too large: 64 bits do not hold
/// the value. In both the value is 0.
/// In C `MantBound`.
#[repr(C)]
#[derive(Clone, Copy, Debug, Default, PartialEq, Eq)]
pub struct Bound {
    /// 0, or 10 where the hop limit is above 7.
    pub number: u8,
    /// 64 bits do not hold the value.
    pub too_large: bool,
    /// The bound; 0 where there is none.
    pub value: u64,
}

/// The sizes, as the library has them.
/// In C `MantLimits`.
#[repr(C)]
#[derive(Clone, Copy, Debug, Default, PartialEq, Eq)]
pub struct Limits {
    /// The bytes of the shortest header.
    pub fixed: usize,
    /// The most bytes of a payload.
    pub payload: usize,
    /// The most addresses of a path.
    pub path: usize,
    /// The most bytes of a header.
    pub header: usize,
    /// The most bytes of a PDU.
    pub pdu: usize,
    /// The most values of a list.
    pub list: usize,
    /// The most bytes of a batch.
    pub batch: usize,
}

// The sizes that the header asserts.
const _: () = {
    assert!(size_of::<Airtime>() == 16);
    assert!(size_of::<Bound>() == 16);
    assert!(size_of::<Limits>() == 56);
};

#[rustfmt::skip]
extern "C" {
    fn mant_chain_lengths(pairs: *const u8, pairs_length: usize, marks: *const u8, marks_length: usize, from: usize, failed: usize, lengths: *mut u8, lengths_length: usize) -> bool;
    fn mant_least_hop_limit(lengths: *const u8, lengths_length: usize) -> u8;
    fn mant_network_transmissions(pairs: *const u8, pairs_length: usize, from: usize, hop_limit: u64, enough: u64, marks: *mut u8, marks_length: usize, counts: *mut u64, counts_length: usize, table: *mut u8, table_length: usize) -> Airtime;
    fn mant_network_bytes(pairs: *const u8, pairs_length: usize, from: usize, hop_limit: u64, size: u64, enough: u64, marks: *mut u8, marks_length: usize, counts: *mut u64, counts_length: usize, table: *mut u8, table_length: usize) -> Airtime;
    fn mant_most_transmissions(nodes: u64, hop_limit: u64) -> Bound;
    fn mant_most_bytes(nodes: u64, hop_limit: u64, size: u64) -> Bound;
    fn mant_most_for_command(
        tries: u64,
        nodes: u64,
        hop_limit: u64,
        answer_nodes: u64,
        answer_hop_limit: u64,
    ) -> Bound;
    fn mant_limits() -> Limits;
}

/// `mant_chain_lengths`.
pub fn chain_lengths(
    pairs: &[u8],
    marks: &[u8],
    from: usize,
    failed: usize,
    lengths: &mut [u8],
) -> bool {
    let (places, nodes) = (pairs.len(), marks.len());
    let (room, lengths) = (lengths.len(), lengths.as_mut_ptr());
    let (pairs, marks) = (pairs.as_ptr(), marks.as_ptr());
    // SAFETY: here and below, pointers and lengths are those of live slices,
    // and what is changed is borrowed alone.
    unsafe { mant_chain_lengths(pairs, places, marks, nodes, from, failed, lengths, room) }
}

/// `mant_least_hop_limit`.
pub fn least_hop_limit(lengths: &[u8]) -> u8 {
    // SAFETY: as above.
    unsafe { mant_least_hop_limit(lengths.as_ptr(), lengths.len()) }
}

/// What the two counts on a network are lent: `marks`, `counts` and `table`.
pub struct Lent<'a> {
    /// A byte for each node, not 0 for one that does not repeat; as before
    /// afterwards.
    pub marks: &'a mut [u8],
    /// A number for each node, which gets its own count.
    pub counts: &'a mut [u64],
    /// 256 bytes for each node.
    pub table: &'a mut [u8],
}

/// `mant_network_transmissions`.
pub fn network_transmissions(
    pairs: &[u8],
    from: usize,
    hop_limit: u64,
    enough: u64,
    lent: Lent,
) -> Airtime {
    let (marks, counts, table) = (lent.marks, lent.counts, lent.table);
    let (nodes, marks) = (marks.len(), marks.as_mut_ptr());
    let (places, counts) = (counts.len(), counts.as_mut_ptr());
    let (room, table) = (table.len(), table.as_mut_ptr());
    let (pairs, said) = (pairs.as_ptr(), pairs.len());
    // SAFETY: as above.
    unsafe {
        mant_network_transmissions(
            pairs, said, from, hop_limit, enough, marks, nodes, counts, places, table, room,
        )
    }
}

/// `mant_network_bytes`.
pub fn network_bytes(
    pairs: &[u8],
    from: usize,
    hop_limit: u64,
    size: u64,
    enough: u64,
    lent: Lent,
) -> Airtime {
    let (marks, counts, table) = (lent.marks, lent.counts, lent.table);
    let (nodes, marks) = (marks.len(), marks.as_mut_ptr());
    let (places, counts) = (counts.len(), counts.as_mut_ptr());
    let (room, table) = (table.len(), table.as_mut_ptr());
    let (pairs, said) = (pairs.as_ptr(), pairs.len());
    // SAFETY: as above.
    unsafe {
        mant_network_bytes(
            pairs, said, from, hop_limit, size, enough, marks, nodes, counts, places, table, room,
        )
    }
}

/// `mant_most_transmissions`.
pub fn most_transmissions(nodes: u64, hop_limit: u64) -> Bound {
    // SAFETY: it takes numbers only.
    unsafe { mant_most_transmissions(nodes, hop_limit) }
}

/// `mant_most_bytes`.
pub fn most_bytes(nodes: u64, hop_limit: u64, size: u64) -> Bound {
    // SAFETY: it takes numbers only.
    unsafe { mant_most_bytes(nodes, hop_limit, size) }
}

/// `mant_most_for_command`.
pub fn most_for_command(
    tries: u64,
    nodes: u64,
    hop_limit: u64,
    answer_nodes: u64,
    answer_hop_limit: u64,
) -> Bound {
    // SAFETY: it takes numbers only.
    unsafe { mant_most_for_command(tries, nodes, hop_limit, answer_nodes, answer_hop_limit) }
}

/// `mant_limits`.
pub fn limits() -> Limits {
    // SAFETY: it takes nothing.
    unsafe { mant_limits() }
}

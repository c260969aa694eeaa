//! What is delivered and what is repeated, for one PDU or over a batch.

/// `MANT_ANSWERED`.
pub const ANSWERED: u8 = 0;
/// `MANT_ENDED`.
pub const ENDED: u8 = 1;
/// `MANT_REFUSED`.
pub const REFUSED: u8 = 2;

/// What a node is set to.
/// In C `MantNode`.
#[repr(C)]
#[derive(Clone, Copy, Debug, Default, PartialEq, Eq)]
pub struct Node {
    /// [`EDITION_1_1`](super::EDITION_1_1) or
    /// [`EDITION_1_2`](super::EDITION_1_2).
    pub edition: u64,
    /// Its own address.
    pub own: u16,
    /// Drop a PDU whose path holds the own address, or whose source it is.
    pub echo: bool,
    /// Repeat what may be repeated.
    pub repeating: bool,
    /// A choice: [`NO_LIST`](super::NO_LIST), [`FIRST_LIST`](super::FIRST_LIST)
    /// or [`SECOND_LIST`](super::SECOND_LIST).
    pub source_pass: u8,
    /// As `source_pass`.
    pub source_reject: u8,
    /// As `source_pass`.
    pub destination_pass: u8,
    /// As `source_pass`.
    pub destination_reject: u8,
}

/// What a node answers for one PDU. Places count from the PDU's first byte.
/// In C `MantAnswer`.
#[repr(C)]
#[derive(Clone, Copy, Debug, Default, PartialEq, Eq)]
pub struct Answer {
    /// 0: delivered; else why not.
    pub delivery: u8,
    /// 0: repeated; else why not.
    pub repeat: u8,
    /// False: who sent it last is unknown: no path bit, or the PDU was not
    /// read.
    pub has_last_sender: bool,
    /// Who the PDU was heard from: the last path address, or the source if the
    /// path is empty; 0 where it is unknown.
    pub last_sender: u16,
    /// Where the payload lies in the received bytes; 0 where nothing is
    /// delivered.
    pub delivered_place: usize,
    /// 0 where nothing is delivered, and for an empty payload.
    pub delivered_length: usize,
    /// How many bytes were written to the output; 0 where nothing is repeated.
    pub repeated_length: usize,
    /// Where the next PDU begins in the received bytes; 0 where this one was
    /// not read: with 17, 20 to 22 and 1 to 6.
    pub taken: usize,
}

/// Where a walk over a batch has come to. A walk begins with place 0 and not
/// ended.
/// In C `MantCursor`.
#[repr(C)]
#[derive(Clone, Copy, Debug, Default, PartialEq, Eq)]
pub struct Cursor {
    /// Where the next PDU begins in the batch.
    pub place: usize,
    /// Whether the walk has ended.
    pub ended: bool,
}

/// What one step of a walk finds.
/// In C `MantStep`.
#[repr(C)]
#[derive(Clone, Copy, Debug, Default, PartialEq, Eq)]
pub struct Step {
    /// [`ANSWERED`], [`ENDED`] or [`REFUSED`].
    pub kind: u8,
    /// The answer, with [`ANSWERED`].
    pub answer: Answer,
    /// The cursor of the next step.
    pub next: Cursor,
}

// The sizes that the header asserts.
const _: () = {
    assert!(size_of::<Node>() == 16);
    assert!(size_of::<Answer>() == 40);
    assert!(size_of::<Cursor>() == 16);
    assert!(size_of::<Step>() == 64);
};

// The cursor is passed as its two fields. On both processors each lands where it
// would as a part of the struct, on x86-64 on the stack. A struct would be copied
// there whole right after its fields were written one by one, which is slow.
#[rustfmt::skip]
extern "C" {
    fn mant_hear(
        node: Node, lists: *const u16, lists_length: usize,
        received: *const u8, received_length: usize, output: *mut u8, output_length: usize,
    ) -> Answer;
    fn mant_step(
        node: Node, lists: *const u16, lists_length: usize,
        batch: *const u8, batch_length: usize, cursor_place: usize, cursor_ended: bool,
        output: *mut u8, output_length: usize,
    ) -> Step;
    fn mant_change_over(node: Node, choice: u64) -> Node;
}

/// `mant_hear`.
#[inline]
pub fn hear(node: Node, lists: &[u16], received: &[u8], output: &mut [u8]) -> Answer {
    // SAFETY: here and below, pointers and lengths are those of live slices,
    // and what is changed is borrowed alone.
    unsafe {
        mant_hear(
            node,
            lists.as_ptr(),
            lists.len(),
            received.as_ptr(),
            received.len(),
            output.as_mut_ptr(),
            output.len(),
        )
    }
}

/// `mant_step`.
#[inline]
pub fn step(node: Node, lists: &[u16], batch: &[u8], cursor: Cursor, output: &mut [u8]) -> Step {
    // SAFETY: as above.
    unsafe {
        mant_step(
            node,
            lists.as_ptr(),
            lists.len(),
            batch.as_ptr(),
            batch.len(),
            cursor.place,
            cursor.ended,
            output.as_mut_ptr(),
            output.len(),
        )
    }
}

/// `mant_change_over`.
pub fn change_over(node: Node, choice: u64) -> Node {
    // SAFETY: it takes no pointer.
    unsafe { mant_change_over(node, choice) }
}

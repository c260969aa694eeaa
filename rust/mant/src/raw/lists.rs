//! The address lists of a node.

/// `MANT_NO_LIST`.
pub const NO_LIST: u8 = 0;
/// `MANT_FIRST_LIST`.
pub const FIRST_LIST: u8 = 1;
/// `MANT_SECOND_LIST`.
pub const SECOND_LIST: u8 = 2;

/// `MANT_SOURCE_PASS_FIRST`, the place of this list among the eight.
pub const SOURCE_PASS_FIRST: u8 = 0;
/// `MANT_SOURCE_PASS_SECOND`.
pub const SOURCE_PASS_SECOND: u8 = 1;
/// `MANT_SOURCE_REJECT_FIRST`.
pub const SOURCE_REJECT_FIRST: u8 = 2;
/// `MANT_SOURCE_REJECT_SECOND`.
pub const SOURCE_REJECT_SECOND: u8 = 3;
/// `MANT_DESTINATION_PASS_FIRST`.
pub const DESTINATION_PASS_FIRST: u8 = 4;
/// `MANT_DESTINATION_PASS_SECOND`.
pub const DESTINATION_PASS_SECOND: u8 = 5;
/// `MANT_DESTINATION_REJECT_FIRST`.
pub const DESTINATION_REJECT_FIRST: u8 = 6;
/// `MANT_DESTINATION_REJECT_SECOND`.
pub const DESTINATION_REJECT_SECOND: u8 = 7;
/// `MANT_LIST_VALUES`: where the values begin in a block, and the `list` of a
/// [`ListFault`] if no list is at fault.
pub const LIST_VALUES: u8 = 8;

/// `MANT_LIST_WORDS`: the words of a block that lists are laid into.
pub const LIST_WORDS: usize = 1040;

/// The eight lists, in the order in which they are checked: kind by kind, source
/// pass, source reject, destination pass, destination reject, first before
/// second.
pub type Lists<'a> = [&'a [u16]; 8];

/// What is wrong with the lists in a block.
/// In C `MantListFault`.
#[repr(C)]
#[derive(Clone, Copy, Debug, Default, PartialEq, Eq)]
pub struct ListFault {
    /// 22, 21 or 20; 0 where no list is at fault.
    pub number: u8,
    /// The place of the first list at fault, 0 to 7; [`LIST_VALUES`] where none
    /// is.
    pub list: u8,
}

// The size that the header asserts.
const _: () = assert!(size_of::<ListFault>() == 2);

#[rustfmt::skip]
extern "C" {
    fn mant_list_fault(lists: *const u16, lists_length: usize) -> ListFault;
    fn mant_list_holds(list: *const u16, list_length: usize, address: u16) -> bool;
    fn mant_lay_eight(
        block: *mut u16,
        source_pass_first: *const u16, source_pass_first_length: usize,
        source_pass_second: *const u16, source_pass_second_length: usize,
        source_reject_first: *const u16, source_reject_first_length: usize,
        source_reject_second: *const u16, source_reject_second_length: usize,
        destination_pass_first: *const u16, destination_pass_first_length: usize,
        destination_pass_second: *const u16, destination_pass_second_length: usize,
        destination_reject_first: *const u16, destination_reject_first_length: usize,
        destination_reject_second: *const u16, destination_reject_second_length: usize,
    ) -> ListFault;
}

/// `mant_list_fault`.
pub fn list_fault(lists: &[u16]) -> ListFault {
    // SAFETY: here and below, pointers and lengths are those of live slices,
    // and what is changed is borrowed alone.
    unsafe { mant_list_fault(lists.as_ptr(), lists.len()) }
}

/// `mant_list_holds`.
pub fn list_holds(list: &[u16], address: u16) -> bool {
    // SAFETY: as above.
    unsafe { mant_list_holds(list.as_ptr(), list.len(), address) }
}

/// `mant_lay_eight`.
#[rustfmt::skip]
pub fn lay_eight(block: &mut [u16; LIST_WORDS], lists: Lists) -> ListFault {
    let [a, b, c, d, e, f, g, h] = lists;
    // SAFETY: as above; the block has as many words as the library asks for.
    unsafe {
        mant_lay_eight(
            block.as_mut_ptr(),
            a.as_ptr(), a.len(), b.as_ptr(), b.len(), c.as_ptr(), c.len(), d.as_ptr(), d.len(),
            e.as_ptr(), e.len(), f.as_ptr(), f.len(), g.as_ptr(), g.len(), h.as_ptr(), h.len(),
        )
    }
}

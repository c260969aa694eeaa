//! One PDU at one node, and the walk over a batch.

use mant::raw::{Answer, Node};

#[rustfmt::skip]
extern "C" {
    fn plain_hear(
        node: Node, lists: *const u16, lists_length: usize, received: *const u8, length: usize, output: *mut u8, output_length: usize,
    ) -> Answer;
    fn plain_walk(
        node: Node, lists: *const u16, lists_length: usize, batch: *const u8, length: usize, output: *mut u8, output_length: usize,
        end: *mut usize,
    ) -> usize;
}

/// `plain_hear`.
#[inline]
pub fn hear(node: Node, lists: &[u16], received: &[u8], output: &mut [u8]) -> Answer {
    // SAFETY: here and below, pointers and lengths are those of live slices.
    unsafe {
        plain_hear(
            node,
            lists.as_ptr(),
            lists.len(),
            received.as_ptr(),
            received.len(),
            output.as_mut_ptr(),
            output.len(),
        )
    }
}

/// `plain_walk`: how many PDUs, and where the walk ended.
#[inline]
pub fn walk(node: Node, lists: &[u16], batch: &[u8], output: &mut [u8]) -> (usize, usize) {
    let mut end = 0;
    // SAFETY: as above.
    let count = unsafe {
        plain_walk(
            node,
            lists.as_ptr(),
            lists.len(),
            batch.as_ptr(),
            batch.len(),
            output.as_mut_ptr(),
            output.len(),
            &mut end,
        )
    };
    (count, end)
}

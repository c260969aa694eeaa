//! 01, "A batch"; number 54. 02, W-209: 17 in a walk.

use crate::edition::Edition;
use crate::lists::Lists;
use crate::node::{hear, Answer, Settings};
use crate::numbers::{
    BATCH_SIZE, FEWER_THAN_6, LONG_LIST, LOW_ABOVE_HIGH, PAYLOAD_PAST_END, UNKNOWN_EDITION,
};

/// 01, "Sizes": a batch is 0 to 16,384 bytes.
pub const MOST_BATCH: usize = 16_384;

/// One answer of the walk.
#[derive(Clone, Debug, PartialEq, Eq)]
pub struct Step {
    /// Where in the batch the PDU starts.
    pub offset: usize,
    /// The node's answer; the delivered place counts from the offset.
    pub answer: Answer,
    /// The repeated PDU, empty where there is none.
    pub repeated: Vec<u8>,
}

/// A whole walk.
#[derive(Clone, Debug, PartialEq, Eq)]
pub struct Walk {
    /// The answers, one for each PDU met.
    pub steps: Vec<Step>,
    /// The offset of the first byte not taken.
    pub end: usize,
}

/// Walks the batch; each repeated PDU is written at the start of the same
/// output. Over 16,384 bytes the answer is 54 alone; 17, "before every other
/// check", is the answer for a PDU, and where there is none, none is given.
pub fn walk(settings: &Settings, lists: &Lists, batch: &[u8], out: &mut [u8]) -> Result<Walk, u8> {
    if Edition::of(settings.edition).is_ok() && batch.len() > MOST_BATCH {
        return Err(BATCH_SIZE);
    }
    let mut steps = Vec::new();
    let mut end = 0;
    while end < batch.len() {
        let answer = hear(settings, lists, &batch[end..], out);
        steps.push(Step {
            offset: end,
            answer,
            repeated: out[..answer.repeated_length].to_vec(),
        });
        if ends_the_walk(answer.delivery) {
            break;
        }
        end += answer.taken;
    }
    Ok(Walk { steps, end })
}

/// "At 1 to 6 or a list fault it ends there"; 17 "ends a walk".
fn ends_the_walk(number: u8) -> bool {
    (FEWER_THAN_6..=PAYLOAD_PAST_END).contains(&number)
        || (LOW_ABOVE_HIGH..=LONG_LIST).contains(&number)
        || number == UNKNOWN_EDITION
}

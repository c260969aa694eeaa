//! Outputs: their room and what they hold before.

use crate::random::Random;

/// A room from none to more than enough for `exact` bytes, mostly exactly
/// enough or one short.
pub fn room(random: &mut Random, exact: usize) -> usize {
    match random.below(10) {
        0..=2 => exact,
        3..=4 => exact.saturating_sub(1),
        5 => exact + 1,
        6 => random.between(0, exact),
        7 => random.pick(&[0, 1, 5, 6]),
        _ => exact + random.between(1, 60),
    }
}

/// An output of that room, holding any bytes.
pub fn output(random: &mut Random, room: usize) -> Vec<u8> {
    random.bytes(room)
}

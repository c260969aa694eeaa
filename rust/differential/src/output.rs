//! Outputs.

use crate::guarded::Guarded;
use generator::Random;

/// An output and what surrounds it.
#[derive(Clone, Debug, PartialEq, Eq)]
pub struct Output(Guarded<u8>);

impl Output {
    /// An output of so much room, holding any bytes.
    pub fn of(random: &mut Random, room: usize) -> Output {
        Output(Guarded::any(random, room, Random::bytes))
    }

    /// The room to write to.
    pub fn room(&mut self) -> &mut [u8] {
        self.0.change()
    }

    /// All bytes, those around the room too.
    pub fn all(&self) -> &[u8] {
        self.0.all()
    }
}

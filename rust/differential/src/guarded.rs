//! Memory inside a larger buffer, so that what is written before or after it
//! shows too.

use generator::Random;

/// Bytes on each side of the memory.
const GUARD: usize = 24;

/// Some elements, of a size that divides 8, and what surrounds them.
#[derive(Clone, Debug, PartialEq, Eq)]
pub struct Guarded<T> {
    all: Vec<T>,
    start: usize,
    length: usize,
}

impl<T: Copy> Guarded<T> {
    /// So many elements, any ones, at any place modulo 8 bytes, between others
    /// of any.
    pub fn any(
        random: &mut Random,
        length: usize,
        any: impl Fn(&mut Random, usize) -> Vec<T>,
    ) -> Guarded<T> {
        let start = GUARD / size_of::<T>() + random.below(8 / size_of::<T>());
        Guarded {
            all: any(random, start + length + GUARD / size_of::<T>()),
            start,
            length,
        }
    }

    /// The same with these elements.
    pub fn of(
        random: &mut Random,
        elements: &[T],
        any: impl Fn(&mut Random, usize) -> Vec<T>,
    ) -> Guarded<T> {
        let mut guarded = Guarded::any(random, elements.len(), any);
        guarded.change().copy_from_slice(elements);
        guarded
    }

    /// The elements.
    pub fn elements(&self) -> &[T] {
        &self.all[self.start..self.start + self.length]
    }

    /// The same to be changed.
    pub fn change(&mut self) -> &mut [T] {
        &mut self.all[self.start..self.start + self.length]
    }

    /// What surrounds them too.
    pub fn all(&self) -> &[T] {
        &self.all
    }
}

//! Lent buffers within guards, and how two of them differ.

use std::fmt::Debug;
use std::ops::Range;

use model::BLOCK;

use crate::both::Difference;

/// Items before and after a lent buffer, which no call may change.
pub const GUARD: usize = 61;

/// A buffer within guards: of bytes, or of the numbers of a list.
#[derive(Default)]
pub struct Guarded<T = u8> {
    pub items: Vec<T>,
}

impl<T: Copy> Guarded<T> {
    /// A buffer that has such items all over, and guards of them.
    pub fn of(item: T, length: usize) -> Guarded<T> {
        Guarded { items: vec![item; length + 2 * GUARD] }
    }

    /// So many items from the start.
    pub fn lent(&self, length: usize) -> &[T] {
        &self.items[GUARD..GUARD + length]
    }

    /// So many items from the start, to be changed.
    pub fn lent_mut(&mut self, length: usize) -> &mut [T] {
        &mut self.items[GUARD..GUARD + length]
    }

    /// Makes the buffer have so many of an item, and guards of it.
    pub fn clear(&mut self, item: T, length: usize) {
        self.items.clear();
        self.items.resize(length + 2 * GUARD, item);
    }
}

impl<T: PartialEq> Guarded<T> {
    /// Whether all are this item, the guards too. None of them ends the look, so that it takes many at once.
    pub fn has_only(&self, item: T) -> bool {
        self.items.iter().fold(true, |all, other| all & (*other == item))
    }
}

impl Guarded {
    /// These blocks.
    pub fn blocks(&self, blocks: Range<usize>) -> &[u8] {
        &self.items[GUARD + blocks.start * BLOCK..GUARD + blocks.end * BLOCK]
    }

    /// The bytes before and after the buffer.
    pub fn guards(&self) -> [&[u8]; 2] {
        [&self.items[..GUARD], &self.items[self.items.len() - GUARD..]]
    }
}

/// Guarded buffers that are equal, guards and all.
pub fn compare<T: PartialEq + Debug>(what: &str, one: &Guarded<T>, other: &Guarded<T>) -> Result<(), Difference> {
    compare_from(-(GUARD as isize), what, &one.items, &other.items)
}

/// Equal items, or the first place where they are not, counted from the start of the lent buffer.
pub fn compare_from<T: PartialEq + Debug>(start: isize, what: &str, one: &[T], other: &[T]) -> Result<(), Difference> {
    if one == other {
        return Ok(());
    }
    let place = one.iter().zip(other).position(|(a, b)| a != b).unwrap_or(one.len().min(other.len()));
    let (here, there) = (one.get(place), other.get(place));
    Err(format!("{what}: {here:?} at place {}, not {there:?}", start + place as isize))
}

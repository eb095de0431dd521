//! Sections: blocks that are split into halves and merged with their buddies.

use crate::MOST_HEIGHT;

/// The blocks from `first` on, 2 to the height of them.
#[derive(Clone, Copy, Debug, Default, PartialEq, Eq)]
pub struct Section {
    pub first: u32,
    pub height: u32,
}

impl Section {
    /// The section of a pair, if its length is one of 1, 2, 4 up to that of the greatest height.
    pub fn of_pair(first: u32, length: u32) -> Option<Section> {
        let is_length = length.is_power_of_two() && length <= 1 << MOST_HEIGHT;
        is_length.then(|| Section { first, height: length.trailing_zeros() })
    }

    pub fn length(self) -> u32 {
        1 << self.height
    }

    /// The block after the last.
    pub fn end(self) -> u32 {
        self.first + self.length()
    }

    /// Whether the first block is a multiple of the length, and the end within the disk. The first block may be any
    /// number of 4 bytes, to which the length cannot be added.
    pub fn is_on_disk(self, blocks: u32) -> bool {
        let length = self.length();
        length <= blocks && self.first <= blocks - length && self.first & (length - 1) == 0
    }

    pub fn buddy(self) -> Section {
        Section { first: self.first ^ self.length(), ..self }
    }

    /// The section of which this one and its buddy are the halves.
    pub fn parent(self) -> Section {
        Section { first: self.first & !self.length(), height: self.height + 1 }
    }

    /// The two halves.
    pub fn halves(self) -> (Section, Section) {
        let lower = Section { first: self.first, height: self.height - 1 };
        (lower, lower.buddy())
    }

    pub fn is_inside(self, other: Section) -> bool {
        other.first <= self.first && self.end() <= other.end()
    }

    /// Where the section is once all that lies inside `from` has moved to `to`.
    pub fn moved(self, from: Section, to: Section) -> Section {
        if self.is_inside(from) {
            Section { first: to.first + (self.first - from.first), ..self }
        } else {
            self
        }
    }
}

//! Which blocks of two disks are compared after a call where comparing all of them would take too long.
//!
//! First the blocks that the call touches by the second implementation's own account: the pieces of an added file, the
//! buddies that a removal moves and the sections that they move to, with the free blocks in them, which keep their
//! bytes, and for a replacement both; and the block before and after each of these. A replacement that is refused for
//! its letter or for space touches nothing, but what its removal would move is compared. Then a window that goes round
//! the disk, one part of many at each call: so a block that was changed and should not have been is found when the
//! window comes to it, unless a later call has written over it.

use std::ops::Range;

use model::{Answer, Entry, Move};

use crate::call::Call;

/// After so many calls the window has gone round the disk.
pub const ROUND: usize = 64;

/// The blocks that are compared after a call.
pub struct Touched {
    blocks: usize,
    runs: Vec<Range<usize>>,
    window: Range<usize>,
}

impl Touched {
    /// For disks of so many blocks.
    pub fn new(blocks: usize) -> Touched {
        Touched { blocks, runs: Vec::new(), window: 0..0 }
    }

    /// Notes the buddies that a call is going to move.
    pub fn before<'a>(&mut self, moves: impl Iterator<Item = &'a Move>) {
        self.runs = moves.flat_map(|moved| [moved.from.clone(), moved.to.clone()]).collect();
    }

    /// Notes the pieces of a file that was added too, also in the place of another, and moves the window.
    pub fn after(&mut self, call: &Call, answer: Answer, cat: &[u8]) {
        if let (Some(id), Ok(_)) = (call.placed(), answer) {
            let catalogue = model::sound(cat);
            let entry = catalogue.as_ref().and_then(|catalogue| catalogue.entry(id));
            self.runs.extend(entry.into_iter().flat_map(|entry| entry.pairs.iter().map(|pair| pair.blocks())));
        }
        let start = if self.window.end >= self.blocks { 0 } else { self.window.end };
        self.window = start..(start + self.blocks.div_ceil(ROUND)).min(self.blocks);
    }

    /// The blocks to compare.
    pub fn ranges(&self) -> impl Iterator<Item = Range<usize>> + '_ {
        let wider = |run: &Range<usize>| run.start.saturating_sub(1)..(run.end + 1).min(self.blocks);
        self.runs.iter().map(wider).chain([self.window.clone()])
    }

    /// Whether the last call touched a block of this file.
    pub fn meets(&self, entry: &Entry) -> bool {
        let blocks = entry.pairs.iter().map(|pair| pair.blocks());
        blocks.into_iter().any(|piece| self.runs.iter().any(|run| run.start < piece.end && piece.start < run.end))
    }
}

#[cfg(test)]
mod tests {
    use super::*;

    /// All blocks of both sections, copied or not, and those beside them.
    #[test]
    fn a_move_touches_two_sections() {
        let mut touched = Touched::new(32);
        touched.before([Move { from: 8..16, to: 16..24, copies: vec![(9, 17)] }].iter());
        assert_eq!(Vec::from_iter(touched.ranges()), [7..17, 15..25, 0..0]);
        touched.before([].iter());
        assert_eq!(touched.ranges().count(), 1, "the window alone");
    }

    /// Over one round the windows cover each block once, and then begin anew.
    #[test]
    fn the_window_goes_round() {
        for blocks in [1, 63, 64, 65, 1000, 65_538] {
            let mut touched = Touched::new(blocks);
            let mut end = 0;
            while end < blocks {
                touched.after(&Call::Free, Ok(0), &[]);
                let ranges: Vec<_> = touched.ranges().collect();
                assert_eq!((ranges.len(), ranges[0].start), (1, end));
                assert!(ranges[0].len() * ROUND >= blocks || ranges[0].end == blocks);
                end = ranges[0].end;
            }
            touched.after(&Call::Free, Ok(0), &[]);
            assert_eq!(touched.ranges().next().map(|range| range.start), Some(0));
        }
    }
}

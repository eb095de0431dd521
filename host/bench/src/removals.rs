//! Removals whose copies depend on what is free: one that moves a buddy of which half is free, and one that finds two
//! free buddies.

use crate::builds::Build;
use crate::sides::Side;
use crate::spread::Spread;
use crate::timing::{interleaved, time_removal, Beside};
use twin::{Version, BLOCK};

/// The version of the catalogues.
pub const VERSION: Version = Version::LARGE;

/// A kind of removal, on disks of any length. All numbers of blocks are sixteenths of the disk.
pub struct Kind {
    pub title: &'static str,
    /// The files that are added to a fresh disk, by id and blocks. One may be removed again; then file 1 is removed.
    files: [(u16, usize); 3],
    removed_before: Option<u16>,
    /// A section that the removal is about, in a few words, its blocks, and those that are copied.
    pub section: &'static str,
    section_blocks: usize,
    copied: usize,
}

/// The second file has the lower half of the first one's buddy, and the section after the third is free: the removal of
/// the first moves that buddy there.
pub const HALF_FREE: Kind = Kind {
    title: "A removal that moves a buddy of which half is free",
    files: [(1, 2), (2, 1), (3, 2)],
    removed_before: None,
    section: "blocks of the buddy",
    section_blocks: 2,
    copied: 1,
};

/// The first quarter of the disk and both of its upper quarters get free: these are buddies, and the file in the second
/// quarter stays where it is. With the two lowest it would be copied.
pub const FREE_BUDDIES: Kind = Kind {
    title: "A removal that finds two free buddies above another free section",
    files: [(3, 2), (2, 4), (1, 6)],
    removed_before: Some(3),
    section: "blocks of each",
    section_blocks: 4,
    copied: 0,
};

/// The removal on a disk of some blocks.
pub struct Removal {
    pub blocks: usize,
    /// The blocks of the section that it is about.
    pub section: usize,
    /// The blocks that are copied.
    pub copied: usize,
    /// The nanoseconds: proved, twin, model.
    pub times: [Spread; 3],
    pub to_twin: Spread,
    /// The builds that have the version, and the blocks that each copies.
    pub besides: Vec<Beside>,
    pub copied_by: Vec<u64>,
}

impl Kind {
    /// A disk with the files. No block is zero: zero bytes may not be in memory before they are written, and then they
    /// are read faster.
    fn filled(&self, blocks: usize) -> (Vec<u8>, Vec<u8>) {
        let (mut cat, mut disk) = (vec![0; VERSION.catalogue], vec![0xff; blocks * BLOCK]);
        twin::format(&mut cat, &disk).expect("the disk is one of the version");
        for (id, share) in self.files {
            let content = vec![id as u8; blocks / 16 * share * BLOCK];
            twin::add(&mut cat, &mut disk, id, &content).expect("the file fits");
        }
        if let Some(id) = self.removed_before {
            twin::remove(&mut cat, &mut disk, id).expect("the file is there");
        }
        (cat, disk)
    }

    /// Times the removal on all sides by turns.
    pub fn time(&self, blocks: usize, builds: &[&'static Build], rounds: usize) -> Removal {
        let (cat, mut disk) = self.filled(blocks);
        let own = [Side::Proved, Side::Twin, Side::Model];
        let sides: Vec<Side> = own.into_iter().chain(builds.iter().map(|build| Side::Beside(build))).collect();
        let mut copied_by = vec![0; sides.len()];
        let times = interleaved(sides.len(), rounds, |which| {
            let (time, answer) = time_removal(sides[which], &cat, &mut disk);
            copied_by[which] = answer.expect("the file is there");
            time
        });
        let [section, copied] = [self.section_blocks, self.copied].map(|share| blocks / 16 * share);
        assert_eq!(copied_by[..3], [copied as u64; 3], "{}", self.title);
        Removal {
            blocks,
            section,
            copied,
            times: [0, 1, 2].map(|side| Spread::of(times[side].clone())),
            to_twin: Spread::of_ratios(&times[0], &times[1]),
            besides: Beside::of(builds, &times[3..], &times[0]),
            copied_by: copied_by.split_off(3),
        }
    }
}

#[cfg(test)]
mod tests {
    use super::*;
    use model::{buddies_first, removal_merges, removal_moves, two_lowest, Move};

    #[test]
    fn half_of_the_buddy_is_free() {
        let (cat, disk) = HALF_FREE.filled(32);
        let moves = removal_moves(&cat, &disk, 1).expect("the file is there");
        assert_eq!(moves, [Move { from: 4..8, to: 12..16, copies: vec![(4, 12), (5, 13)] }]);
    }

    #[test]
    fn two_buddies_are_free_above_another_section() {
        let (cat, disk) = FREE_BUDDIES.filled(16);
        let merges = |choice| removal_merges(choice, &cat, &disk, 1).expect("the file is there");
        let last = merges(buddies_first).pop().expect("there are two merges");
        assert_eq!((last.free, last.taken, last.moved), (vec![0, 8, 12], [8, 12], None));
        let moved: Vec<Move> = merges(two_lowest).into_iter().filter_map(|merge| merge.moved).collect();
        assert_eq!(moved, [Move { from: 4..8, to: 8..12, copies: (4..8).zip(8..12).collect() }]);
    }
}

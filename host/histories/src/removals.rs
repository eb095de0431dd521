//! What removals copied and merged, counted: those of the call, or those of replacements.

use crate::merges::Copied;

/// Counts of removals that were answered.
#[derive(Clone, Copy, Default)]
pub struct Removals {
    count: u64,
    /// Those that copied a block, the blocks that all copied, and the most of one.
    pub copying: u64,
    pub copied: u64,
    most_copied: u64,
    /// The blocks of the buddies that moved.
    moved: u64,
    /// Those that copied as many blocks as they may, and at least one; and the most that one of them copied.
    pub at_bound: u64,
    most_at_bound: u64,
    /// The merges, and those of two free buddies though the two lowest free sections were others.
    merges: u64,
    pub passing: u64,
    /// The blocks that would be copied with the two lowest always, and how many removals copied fewer and more.
    by_lowest: u64,
    fewer: u64,
    more: u64,
}

impl Removals {
    /// Counts a removal. One that may copy nothing reaches its bound in no way worth counting.
    pub fn note(&mut self, copied: Copied) {
        let at_bound = copied.bound > 0 && copied.blocks == copied.bound;
        *self = self.with(Removals {
            count: 1,
            copying: u64::from(copied.blocks > 0),
            copied: copied.blocks,
            most_copied: copied.blocks,
            moved: copied.moved,
            at_bound: u64::from(at_bound),
            most_at_bound: if at_bound { copied.bound } else { 0 },
            merges: copied.merges,
            passing: copied.passing,
            by_lowest: copied.by_lowest,
            fewer: u64::from(copied.blocks < copied.by_lowest),
            more: u64::from(copied.blocks > copied.by_lowest),
        });
    }

    /// These and others.
    pub fn with(self, other: Removals) -> Removals {
        Removals {
            count: self.count + other.count,
            copying: self.copying + other.copying,
            copied: self.copied + other.copied,
            most_copied: self.most_copied.max(other.most_copied),
            moved: self.moved + other.moved,
            at_bound: self.at_bound + other.at_bound,
            most_at_bound: self.most_at_bound.max(other.most_at_bound),
            merges: self.merges + other.merges,
            passing: self.passing + other.passing,
            by_lowest: self.by_lowest + other.by_lowest,
            fewer: self.fewer + other.fewer,
            more: self.more + other.more,
        }
    }

    /// The free blocks of buddies that moved, which were not copied.
    pub fn spared(&self) -> u64 {
        self.moved - self.copied
    }

    /// Prints all counts, under the name of what was counted.
    pub fn print(&self, name: &str) {
        let Removals { count, copied, moved, most_copied, at_bound, most_at_bound, .. } = self;
        println!("  {name} {count}: {copied} blocks copied of {moved} in the buddies that moved,");
        println!(
            "  at most {most_copied} copied in one; {at_bound} reached the carry bound, the greatest at {most_at_bound}"
        );
        let Removals { merges, passing, by_lowest, fewer, more, .. } = self;
        println!("  merges {merges}: {passing} of two free buddies though the two lowest free sections were others;");
        println!("  taking the two lowest always, each from the same disk, they would copy {by_lowest} blocks:");
        println!("  {fewer} {name} copied fewer than that, {more} copied more");
    }
}

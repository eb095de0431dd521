//! The merges of a removal, or of a replacement, by the second implementation's account: that the right two free
//! sections are taken each time, and what is copied for it.

use model::{buddies_first, two_lowest, Merge, Move};

use crate::both::Difference;
use crate::watch::require;

/// What a removal merges, or that of a replacement. That of no file merges nothing.
#[derive(Default)]
pub struct Merges {
    all: Vec<Merge>,
    /// The blocks that the removal would copy if the two lowest free sections were taken always.
    by_lowest: u64,
}

/// A removal that was answered, or that of a replacement.
#[derive(Clone, Copy, Debug, PartialEq, Eq)]
pub struct Copied {
    /// How many blocks it copied, and how many the buddies have that it moved.
    pub blocks: u64,
    pub moved: u64,
    /// The limit on the blocks that it copies.
    pub bound: u64,
    /// The merges, and those of them that took two buddies though the two lowest free sections were others.
    pub merges: u64,
    pub passing: u64,
    /// How many blocks it would have copied with the two lowest always.
    pub by_lowest: u64,
}

fn takes_lowest(merge: &Merge) -> bool {
    merge.free.starts_with(&merge.taken)
}

fn moves(merges: &[Merge]) -> impl Iterator<Item = &Move> {
    merges.iter().filter_map(|merge| merge.moved.as_ref())
}

fn copies(merges: &[Merge]) -> u64 {
    moves(merges).map(|moved| moved.copies.len() as u64).sum()
}

impl Merges {
    /// What the removal of an id is going to merge.
    pub fn of(cat: &[u8], disk: &[u8], id: u16) -> Merges {
        let by = |choice| model::removal_merges(choice, cat, disk, id).unwrap_or_default();
        let all = by(buddies_first);
        let by_lowest = if all.iter().all(takes_lowest) { copies(&all) } else { copies(&by(two_lowest)) };
        Merges { all, by_lowest }
    }

    /// The buddies that move, in order.
    pub fn moves(&self) -> impl Iterator<Item = &Move> {
        moves(&self.all)
    }

    /// The copies of a removal that was answered, of a file of n blocks with f free ones: at most the carries of f + n,
    /// and for each buddy that moved at least one. For when it moves, no two free pieces are left at any height below
    /// its own, so that those inside it do not fill it.
    pub fn check(&self, f: u64, n: u64, blocks: u64) -> Result<Copied, Difference> {
        let bound = model::carries(f, n);
        require(bound == event_disk::carries(f, n), || format!("two carry bounds differ for f {f}, n {n}"))?;
        require(blocks <= bound, || format!("{blocks} blocks were copied, the limit for f {f}, n {n} is {bound}"))?;
        let copies = copies(&self.all);
        require(copies == blocks, || format!("{blocks} blocks were copied, not the {copies} of the merges"))?;
        for merge in &self.all {
            require(is_right(merge), || format!("this is no right merge: {merge:?}"))?;
        }
        Ok(Copied {
            blocks,
            moved: self.moves().map(|moved| moved.from.len() as u64).sum(),
            bound,
            merges: self.all.len() as u64,
            passing: self.all.iter().filter(|merge| !takes_lowest(merge)).count() as u64,
            by_lowest: self.by_lowest,
        })
    }
}

/// Whether two buddies are taken if any two of the free sections are, and nothing is copied then; and else the two
/// lowest, for which a buddy moves and a block of it is copied.
fn is_right(merge: &Merge) -> bool {
    let Merge { length, free, taken: [lower, upper], moved } = merge;
    let is_free_buddy = |first: &usize| free.contains(&(first ^ length));
    match moved {
        None => lower < upper && lower ^ length == *upper && is_free_buddy(lower) && is_free_buddy(upper),
        Some(moved) => takes_lowest(merge) && !free.iter().any(is_free_buddy) && !moved.copies.is_empty(),
    }
}

#[cfg(test)]
mod tests {
    use super::*;

    /// Merges of sections of two blocks that are no buddies: so many blocks are copied for each.
    fn copying(copies: &[usize]) -> Merges {
        let copied = |count: usize| (0..count).map(|block| (block + 2, block + 4)).collect();
        let moved = |count| Some(Move { from: 2..4, to: 4..6, copies: copied(count) });
        let merge = |&count: &usize| Merge { length: 2, free: vec![0, 4], taken: [0, 4], moved: moved(count) };
        Merges { all: copies.iter().map(merge).collect(), by_lowest: 9 }
    }

    #[test]
    fn copies_past_the_bound_are_seen() {
        let none = Copied { blocks: 0, moved: 0, bound: 1, merges: 0, passing: 0, by_lowest: 0 };
        assert_eq!(Merges::default().check(1, 1, 0), Ok(none));
        let some = Copied { blocks: 3, moved: 4, bound: 4, merges: 2, passing: 0, by_lowest: 9 };
        assert_eq!(copying(&[1, 2]).check(4, 4, 3), Ok(some));
        assert!(copying(&[3, 2]).check(4, 4, 5).is_err());
        assert!(copying(&[1]).check(2048, 2047, 1).is_err());
    }

    #[test]
    fn a_move_without_a_copy_and_copies_of_no_move_are_seen() {
        assert!(copying(&[1]).check(2, 2, 1).is_ok());
        assert!(copying(&[1]).check(2, 2, 2).is_err());
        assert!(copying(&[]).check(2, 2, 1).is_err());
        assert!(copying(&[1, 0]).check(3, 3, 1).is_err());
    }

    /// Of the free sections of two blocks these are taken; if that is right, whether the two lowest are others.
    fn choice(free: &[usize], taken: [usize; 2], copying: bool) -> Option<bool> {
        let moved = copying.then(|| Move { from: 6..8, to: 2..4, copies: vec![(6, 2)] });
        let merge = Merge { length: 2, free: free.to_vec(), taken, moved };
        is_right(&merge).then_some(!takes_lowest(&merge))
    }

    #[test]
    fn a_wrong_choice_is_seen() {
        assert_eq!(choice(&[0, 4, 6], [4, 6], false), Some(true));
        assert_eq!(choice(&[0, 2, 8], [0, 2], false), Some(false));
        assert_eq!(choice(&[2, 4], [2, 4], true), Some(false), "neighbours, but no buddies");
        for (free, taken, copying) in [
            (&[0, 4, 6][..], [0, 4], true),
            (&[0, 4, 6], [4, 6], true),
            (&[0, 4, 6], [6, 4], false),
            (&[0, 4], [4, 6], false),
            (&[2, 4], [2, 4], false),
            (&[0, 4, 8], [0, 8], true),
            (&[0, 4, 8], [4, 8], true),
        ] {
            assert_eq!(choice(free, taken, copying), None, "{taken:?} of {free:?}");
        }
    }
}

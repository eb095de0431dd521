//! Adding and removing, on the map of blocks.

use std::ops::Range;

use crate::blocks::height_of_page;
use crate::{BlockMap, Owner};

/// Two free sections of a height that a removal merges.
#[derive(Clone, Debug, PartialEq, Eq)]
pub struct Merge {
    /// The blocks of a section of that height.
    pub length: usize,
    /// The first blocks of all sections of that height that are free, rising.
    pub free: Vec<usize>,
    /// The first blocks of the two, L below U.
    pub taken: [usize; 2],
    /// The buddy of L that moves to U, unless it is U.
    pub moved: Option<Move>,
}

/// A choice of two sections: from the first blocks of the free ones of a height, rising, and the blocks of a section of
/// that height. A height with less than two has none.
pub type Choice = fn(&[usize], usize) -> Option<[usize; 2]>;

/// The choice of a removal: the two that are halves of one section, if two are, else the two lowest.
pub fn buddies_first(free: &[usize], length: usize) -> Option<[usize; 2]> {
    let halves = |lower: usize, upper: usize| lower < upper && lower / (2 * length) == upper / (2 * length);
    let buddies = free.iter().find_map(|&lower| {
        let upper = free.iter().copied().find(|&upper| halves(lower, upper))?;
        Some([lower, upper])
    });
    buddies.or_else(|| two_lowest(free, length))
}

/// Another choice, to which that of a removal can be compared: the two lowest always, be others buddies or not.
pub fn two_lowest(free: &[usize], _length: usize) -> Option<[usize; 2]> {
    free.first_chunk().copied()
}

/// A buddy that moves to a free section.
#[derive(Clone, Debug, PartialEq, Eq)]
pub struct Move {
    /// The blocks of the buddy.
    pub from: Range<usize>,
    /// The blocks of the section that it moves to.
    pub to: Range<usize>,
    /// The block copies, from and to, in order.
    pub copies: Vec<(usize, usize)>,
}

impl BlockMap {
    /// Makes a block range free as one piece of a height.
    fn set_free(&mut self, first: usize, height: u8) {
        self.owners[first..first + (1 << height)].fill(Owner::Free { height });
    }

    /// Gives n blocks to a file: from the highest 1 of n down, one piece for each.
    ///
    /// A piece comes from the least height with a free piece that is not below its own. Of that piece the lowest
    /// blocks are used; splitting has left an upper half at each height in between.
    pub fn add(&mut self, id: u16, n: u32) {
        let most = self.version.most_height();
        let mut page = 0;
        for height in (0..=most).rev().filter(|&height| n >> height & 1 == 1) {
            let (first, taken) = (height..=most)
                .find_map(|h| self.free_pieces(h).next().map(|first| (first, h)))
                .expect("n is at most f, so that a piece of this height or above is free");
            for half in height..taken {
                self.set_free(first + (1 << half), half);
            }
            for owner in &mut self.owners[first..first + (1 << height)] {
                *owner = Owner::Held { id, page };
                page += 1;
            }
        }
        self.sizes.insert(id, n);
    }

    /// Frees the blocks of a file and merges. The result is the list of buddies that move, in order.
    pub fn remove(&mut self, id: u16) -> Vec<Move> {
        self.remove_by(buddies_first, id).into_iter().filter_map(|merge| merge.moved).collect()
    }

    /// Frees the blocks of a file and merges the sections of a choice. The result is the list of merges, in order.
    pub fn remove_by(&mut self, choice: Choice, id: u16) -> Vec<Merge> {
        let n = self.sizes.remove(&id).expect("the id is in the catalogue");
        for owner in &mut self.owners {
            match *owner {
                Owner::Held { id: held, page } if held == id => {
                    *owner = Owner::Free { height: height_of_page(n, page) };
                }
                _ => {}
            }
        }
        let mut merges = Vec::new();
        for height in 0..self.version.most_height() {
            merges.extend(std::iter::from_fn(|| self.merge(height, choice)));
        }
        merges
    }

    /// Merges once at a height, if it has two free pieces or more.
    fn merge(&mut self, height: u8, choice: Choice) -> Option<Merge> {
        let length = 1 << height;
        let free: Vec<usize> = self.free_pieces(height).collect();
        let [lower, upper] = choice(&free, length)?;
        // The two halves of a section of height + 1 are buddies.
        let whole = lower / (2 * length) * (2 * length);
        let buddy = if lower == whole { whole + length } else { whole };
        let moves = upper != buddy;
        let moved = moves.then(|| self.move_blocks(buddy..buddy + length, upper..upper + length));
        self.set_free(whole, height + 1);
        Some(Merge { length, free, taken: [lower, upper], moved })
    }

    /// Moves blocks: each has the same owner at the same distance in the other range, be it free or not, but only a
    /// block that belongs to a file is copied.
    fn move_blocks(&mut self, from: Range<usize>, to: Range<usize>) -> Move {
        let both = from.clone().zip(to.clone());
        let copies = both.filter(|&(block, _)| matches!(self.owners[block], Owner::Held { .. })).collect();
        self.owners.copy_within(from.clone(), to.start);
        Move { from, to, copies }
    }
}

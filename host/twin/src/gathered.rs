//! All pieces of a table side by side, so that every two can be compared for a block that they share.

use crate::table::Table;
use crate::{Version, MOST_FILES, MOST_OF_ONE};

/// A piece is compared with so many at once.
const GROUP: usize = 16;
/// Places for the pieces of each file and of the free blocks, and for the rest of the last group.
const PLACES: usize = MOST_OF_ONE * (MOST_FILES + 1) + GROUP;
/// A block past every disk, which no piece has. It stands behind the last piece.
const NO_BLOCK: u32 = Version::LARGE.most_blocks as u32;

/// The first blocks of `count` pieces, and their masks: the length less one.
pub struct Gathered {
    count: usize,
    firsts: [u32; PLACES],
    masks: [u32; PLACES],
}

impl Gathered {
    /// The pieces of each file and then the free ones, if all are on the disk.
    pub fn of(table: &Table) -> Option<Gathered> {
        let mut all = Gathered { count: 0, firsts: [NO_BLOCK; PLACES], masks: [0; PLACES] };
        let lists = table.files().iter().map(|entry| entry.pieces.all()).chain([table.free.all()]);
        for piece in lists.flatten() {
            if !piece.is_on_disk(table.blocks) {
                return None;
            }
            all.firsts[all.count] = piece.first;
            all.masks[all.count] = piece.length() - 1;
            all.count += 1;
        }
        Some(all)
    }

    /// Whether some two pieces share a block. It ends at the first group in which one does.
    pub fn any_shared(&self) -> bool {
        (0..self.count).any(|place| {
            let later = place + 1..self.count + GROUP - 1;
            let (firsts, _) = self.firsts[later.clone()].as_chunks();
            let (masks, _) = self.masks[later].as_chunks();
            firsts.iter().zip(masks).any(|(f, m)| shares_any(self.firsts[place], self.masks[place], f, m))
        })
    }
}

/// Whether an aligned piece shares a block with one of a group: their first blocks differ in bits of the masks
/// alone. All of the group are looked at, with no branch.
fn shares_any(first: u32, mask: u32, firsts: &[u32; GROUP], masks: &[u32; GROUP]) -> bool {
    firsts.iter().zip(masks).fold(false, |any, (f, m)| any | ((first ^ f) & !(mask | m) == 0))
}

//! A layout as a value: the files by rising id and the free pieces.

use crate::pieces::{FilePieces, FreePieces};
use crate::section::Section;
use crate::{Version, MOST_FILES, MOST_HEIGHT};

/// A file: its id, and its pieces in page order.
#[derive(Clone, Copy, Debug)]
pub struct Entry {
    pub id: u32,
    pub pieces: FilePieces,
}

/// The version that the table is stored in, the disk's blocks, the first `count` files, and the free pieces.
#[derive(Clone, Debug)]
pub struct Table {
    pub version: Version,
    pub blocks: u32,
    count: usize,
    files: [Entry; MOST_FILES],
    pub free: FreePieces,
}

impl Table {
    /// The table of a disk with no file and no free piece.
    pub fn of_blocks(version: Version, blocks: u32) -> Table {
        let blank = Entry { id: 0, pieces: FilePieces::NONE };
        Table { version, blocks, count: 0, files: [blank; MOST_FILES], free: FreePieces::NONE }
    }

    /// The free pieces of a fresh disk: one for each 1 of C, longest first from block 0.
    pub fn fresh_pieces(blocks: u32) -> FreePieces {
        let mut free = FreePieces::NONE;
        let mut first = 0;
        for height in (0..=MOST_HEIGHT).rev().filter(|height| blocks >> height & 1 == 1) {
            free.push(Section { first, height });
            first += 1 << height;
        }
        free
    }

    pub fn files(&self) -> &[Entry] {
        &self.files[..self.count]
    }

    /// The place of the file of an id. Ids are read up to the one sought or the first larger one.
    pub fn find(&self, id: u32) -> Option<usize> {
        self.files().iter().take_while(|entry| entry.id <= id).position(|entry| entry.id == id)
    }

    pub fn push(&mut self, entry: Entry) {
        self.files[self.count] = entry;
        self.count += 1;
    }

    /// A piece for each 1 of n, from the highest down, taken from the free pieces.
    pub fn allocate(&mut self, n: u32) -> FilePieces {
        let mut pieces = FilePieces::NONE;
        for height in (0..=MOST_HEIGHT).rev().filter(|height| n >> height & 1 == 1) {
            pieces.push(self.free.take(height).expect("n is at most f"));
        }
        pieces
    }

    /// Puts a file in its place by id.
    pub fn put(&mut self, entry: Entry) {
        let at = self.files().iter().position(|other| entry.id <= other.id).unwrap_or(self.count);
        self.files.copy_within(at..self.count, at + 1);
        self.files[at] = entry;
        self.count += 1;
    }

    /// Takes a file out, and makes its pieces free.
    pub fn release(&mut self, at: usize) {
        let entry = self.files[at];
        self.files.copy_within(at + 1..self.count, at);
        self.count -= 1;
        self.free.put_all(&entry.pieces);
    }

    /// Merges two free pieces that were taken out: what lies inside the lower one's buddy moves to the upper one.
    pub fn merge(&mut self, lower: Section, upper: Section) {
        let buddy = lower.buddy();
        for entry in &mut self.files[..self.count] {
            entry.pieces.move_inside(buddy, upper);
        }
        self.free.merge(lower, upper);
    }
}

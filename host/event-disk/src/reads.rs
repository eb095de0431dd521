//! How a file is read: the pieces in page order, joined where the drive goes on from one to the next without a seek.

use crate::{File, Piece};

/// Pieces in page order of which each but the first starts where the one before it ends. The drive seeks for the first
/// block alone.
#[derive(Clone, Debug, PartialEq, Eq)]
pub struct Read {
    pub first: u32,
    /// The lengths of the pieces.
    pub lengths: Vec<u32>,
}

impl Read {
    /// All its blocks, which follow each other.
    pub fn blocks(&self) -> Piece {
        Piece { first: self.first, length: self.lengths.iter().sum() }
    }
}

impl File {
    /// The reads that the drive makes for all pages in order: one more than there are breaks.
    pub fn reads(&self) -> Vec<Read> {
        let mut reads: Vec<Read> = Vec::new();
        for piece in self.in_page_order() {
            match reads.last_mut().filter(|read| read.blocks().range().end == piece.range().start) {
                Some(read) => read.lengths.push(piece.length),
                None => reads.push(Read { first: piece.first, lengths: vec![piece.length] }),
            }
        }
        reads
    }
}

/// The contract's limit on the breaks of a file of so many blocks: their ones in binary, less one. These ones are the
/// least number of powers of two that sum to the blocks, and a file is read in at most so many reads.
pub fn most_breaks(blocks: u32) -> u32 {
    blocks.count_ones().saturating_sub(1)
}

//! The quality letter of a miniSEED record.

use crate::disk::block;
use crate::table::Entry;

/// Its place in the record, counted from 0.
const PLACE: usize = 6;
/// The letters, lowest first.
const LETTERS: [u8; 4] = *b"RDQM";

/// The rank of the letter of a record. Any other byte has none, and that is below all ranks.
pub type Rank = Option<usize>;

/// The rank of a record's letter. The record is a page, or starts with one.
pub fn rank(record: &[u8]) -> Rank {
    LETTERS.iter().position(|&letter| letter == record[PLACE])
}

/// The rank of a file's first page, which is the first block of its longest piece.
pub fn stored_rank(disk: &[u8], entry: &Entry) -> Rank {
    rank(block(disk, entry.pieces.all()[0].first))
}

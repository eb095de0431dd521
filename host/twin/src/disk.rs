//! The blocks of a disk: copies within it, pages written to pieces and read from them.

use crate::pieces::FreePieces;
use crate::section::Section;
use crate::table::Entry;
use crate::BLOCK;
use std::ops::Range;

/// The bytes of a block.
pub fn block(disk: &[u8], number: u32) -> &[u8] {
    &disk[BLOCK * number as usize..][..BLOCK]
}

/// Makes the copies of a merge, and answers how many: blocks of the lower section's buddy go to the upper section.
pub fn copy_merge(disk: &mut [u8], free: &FreePieces, lower: Section, upper: Section) -> u64 {
    free.runs_to_copy(lower, upper).map(|run| copy_run(disk, run, lower.buddy(), upper)).sum()
}

/// Copies blocks that lie inside one section to the same distance in another, and answers how many.
fn copy_run(disk: &mut [u8], blocks: Range<u32>, from: Section, to: Section) -> u64 {
    let mut made = 0;
    for block in blocks {
        let source = BLOCK * block as usize;
        let target = BLOCK * (to.first + (block - from.first)) as usize;
        disk.copy_within(source..source + BLOCK, target);
        made += 1;
    }
    made
}

/// Writes the pages of a content to the blocks of a file.
pub fn write_pages(disk: &mut [u8], content: &[u8], entry: &Entry) {
    let mut pages = content.chunks_exact(BLOCK);
    for piece in entry.pieces.all() {
        let first = BLOCK * piece.first as usize;
        let blocks = disk[first..].chunks_exact_mut(BLOCK).take(piece.length() as usize);
        for (block, page) in blocks.zip(&mut pages) {
            block.copy_from_slice(page);
        }
    }
}

/// Fills the output with a file's pages from `first` on.
pub fn read_pages(disk: &[u8], entry: &Entry, first: usize, out: &mut [u8]) {
    let mut pages = out.chunks_exact_mut(BLOCK);
    let mut before = first;
    for piece in entry.pieces.all() {
        let length = piece.length() as usize;
        let skipped = before.min(length);
        let start = BLOCK * (piece.first as usize + skipped);
        let blocks = disk[start..].chunks_exact(BLOCK).take(length - skipped);
        for (block, page) in blocks.zip(&mut pages) {
            page.copy_from_slice(block);
        }
        before -= skipped;
    }
}

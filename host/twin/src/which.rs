//! Which: the removals that would let a file in. The copies of each are counted, and none is made.

use crate::calls::{open, refuse_if, Answer};
use crate::pieces::{FilePieces, FreePieces};
use crate::table::{Entry, Table};
use crate::MOST_FILES;

/// The answer if so many blocks are free already. It is more than there can be files.
pub const FITS_ALREADY: u64 = 256;

/// The blocks that a removal would copy, from the free pieces and the file's alone.
fn copies(mut free: FreePieces, pieces: &FilePieces) -> usize {
    free.put_all(pieces);
    let mut copied = 0;
    while let Some((lower, upper)) = free.take_pair() {
        copied += free.runs_to_copy(lower, upper).map(|run| run.len()).sum::<usize>();
        free.merge(lower, upper);
    }
    copied
}

/// Writes the ids of the files that have so many blocks or more, fewest copies first, then lower ids. Answers how many.
fn list(table: &Table, short: u64, places: &mut [u16]) -> u64 {
    let suffices = |entry: &&Entry| u64::from(entry.pieces.blocks()) >= short;
    let mut removals = [(0, 0); MOST_FILES];
    let mut count = 0;
    for entry in table.files().iter().filter(suffices) {
        removals[count] = (copies(table.free, &entry.pieces), entry.id as u16);
        count += 1;
    }
    removals[..count].sort_unstable();
    for (place, (_, id)) in places.iter_mut().zip(&removals[..count]) {
        *place = *id;
    }
    count as u64
}

/// Which. A file's id is listed if its blocks and the free ones together are at least n; zeros follow the ids.
pub fn which(cat: &[u8], n: u64, places: &mut [u16]) -> Answer {
    let table = open(cat)?;
    refuse_if(n == 0, 8)?;
    refuse_if(places.len() != MOST_FILES, 14)?;
    places.fill(0);
    match n.saturating_sub(table.free.blocks().into()) {
        0 => Ok(FITS_ALREADY),
        short => Ok(list(&table, short, places)),
    }
}

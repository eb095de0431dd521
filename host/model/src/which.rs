//! Which: the removals that would let a file of n blocks in. Each is made, on a map of blocks of its own.

use std::collections::BTreeSet;

use crate::calls::{catalogue_in, refuse_first, Answer};
use crate::{BlockMap, MOST_FILES};

/// The answer "fits already".
pub const FITS_ALREADY: u64 = 256;

/// The number of blocks that the removal of an id reports as copied.
fn reported(mut map: BlockMap, id: u16) -> usize {
    map.remove(id).iter().map(|moved| moved.copies.len()).sum()
}

/// Which. The list gets the ids of all files whose length plus f is at least n, by their reported copies and then by
/// id, and zeros behind them. It gets zeros alone if n is at most f.
pub fn which(cat: &[u8], n: u64, places: &mut [u16]) -> Answer {
    let catalogue = catalogue_in(cat)?;
    refuse_first(&[(8, n == 0), (14, places.len() != MOST_FILES)])?;
    places.fill(0);
    let f = u64::from(catalogue.free_blocks());
    if n <= f {
        return Ok(FITS_ALREADY);
    }
    let map = BlockMap::of(&catalogue);
    let enough = catalogue.entries.iter().filter(|entry| u64::from(entry.blocks) + f >= n);
    let listed: BTreeSet<(usize, u16)> = enough.map(|entry| (reported(map.clone(), entry.id), entry.id)).collect();
    for (place, (_, id)) in places.iter_mut().zip(&listed) {
        *place = *id;
    }
    Ok(listed.len() as u64)
}

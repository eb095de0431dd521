//! Calls on the greatest disk whose answers are written here.

use model::{BLOCK, FITS_ALREADY, MOST_FILES};

use crate::call::Call;

/// The calls that each run has on a disk of so many blocks, with their answers: a file of 300,000 pages, which is
/// replaced by one of the most pieces and by one of one block, one of the most pieces, one of all blocks. The most
/// pieces follow each other where the whole disk was free. Where block 0 was not, they lie at (1,1), (2,2), (4,4) and so
/// on, and are read longest first.
pub fn landmarks(most: usize) -> [(Call, Result<usize, u8>); 25] {
    let add = |id, pages| Call::Add { id, length: pages * BLOCK, letter: b'R' };
    let replace = |id, pages, letter| Call::Replace { id, length: pages * BLOCK, letter };
    let read = |id, pages| Call::Read { id, first: 0, length: pages * BLOCK };
    let which = |n: usize| Call::Which { n: n as u64, places: MOST_FILES };
    let fits = FITS_ALREADY as usize;
    [
        (Call::Format, Ok(most)),
        (add(1, 300_000), Ok(300_000)),
        (read(1, 300_000), Ok(300_000)),
        (which(most - 300_000), Ok(fits)),
        (which(most - 299_999), Ok(1)),
        (which(most), Ok(1)),
        (which(most + 1), Ok(0)),
        (replace(1, most + 1, b'D'), Err(11)),
        (replace(1, most - 1, b'D'), Ok(0)),
        (Call::Breaks { id: 1 }, Ok(0)),
        (replace(1, most + 1, b'R'), Err(13)),
        (replace(1, most + 1, b'?'), Err(12)),
        (replace(1, 1, b'M'), Ok(0)),
        (Call::Remove { id: 1 }, Ok(0)),
        (add(3, 1), Ok(1)),
        (add(2, most - 1), Ok(most - 1)),
        (Call::Breaks { id: 2 }, Ok(19)),
        (add(4, 1), Err(11)),
        (which(1), Ok(2)),
        (which(2), Ok(1)),
        (Call::Remove { id: 2 }, Ok(0)),
        (Call::Remove { id: 3 }, Ok(0)),
        (add(65_535, most + 1), Err(11)),
        (add(65_535, most), Ok(most)),
        (Call::Breaks { id: 65_535 }, Ok(0)),
    ]
}

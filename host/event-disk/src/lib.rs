//! The event disk manager of a volcano station, for Rust.
//!
//! The calls are proved: for every catalogue, disk and argument the answer and the bytes afterwards are those that the
//! definitions in `crates/manager/specs` give. This crate lends them Rust's slices, so that a caller cannot pass a
//! length that is not the buffer's, and cannot let a buffer that is written overlap another. It adds nothing else.
//!
//! A disk is 1 to 4,096 blocks of 512 bytes with the small catalogue of 4,096 bytes, or 1 to 1,048,576 blocks with the
//! large one of 16,384 bytes: [`format`] goes by the catalogue's length, and so does every call after it. Disk and
//! catalogue are the caller's: keep the bytes of both between calls. A refused call changes no byte.
//!
//! ```
//! use event_disk::Version;
//!
//! let mut disk = vec![0; 16 * event_disk::BLOCK];
//! let mut cat = [0; Version::SMALL.catalogue];
//! event_disk::format(&mut cat, &disk)?;
//! event_disk::add(&mut cat, &mut disk, 5, &[7; 3 * event_disk::BLOCK])?;
//! let mut out = [0; event_disk::BLOCK];
//! assert_eq!(event_disk::read(&cat, &disk, 5, 2, &mut out)?, 1);
//! assert_eq!(out, [7; event_disk::BLOCK]);
//! assert_eq!(event_disk::read(&cat, &disk, 5, 3, &mut out), Err(event_disk::Refusal::PastEnd));
//! // 3 blocks lie in two pieces; on this disk they adjoin, so that the drive does not seek between them
//! assert_eq!((event_disk::breaks(&cat, 5)?, event_disk::most_breaks(3)), (0, 1));
//! // byte 6 is the quality letter: M ranks above any other, and not above M
//! let reviewed = [b'M'; event_disk::BLOCK];
//! assert_eq!(event_disk::replace(&mut cat, &mut disk, 5, &reviewed)?, 0);
//! assert_eq!(event_disk::replace(&mut cat, &mut disk, 5, &reviewed), Err(event_disk::Refusal::LetterNotAbove));
//! // 15 of the 16 blocks are free, and the file in the other can be removed
//! let mut places = [0; event_disk::MOST_FILES];
//! assert_eq!(event_disk::which(&cat, 15, &mut places)?, event_disk::Which::FitsAlready);
//! assert_eq!(event_disk::which(&cat, 16, &mut places)?, event_disk::Which::Removals(1));
//! assert_eq!(places[..2], [5, 0]);
//!
//! let mut large = [0; Version::LARGE.catalogue];
//! let disk = vec![0; 5000 * event_disk::BLOCK];
//! assert_eq!(event_disk::format(&mut cat, &disk), Err(event_disk::Refusal::NoDisk));
//! assert_eq!(event_disk::format(&mut large, &disk), Ok(5000));
//! assert_eq!(event_disk::list(&large)?.version, Version::LARGE);
//! # Ok::<(), event_disk::Refusal>(())
//! ```

#[cfg(not(feature = "unproved"))]
mod archive;
#[cfg(feature = "unproved")]
#[path = "unproved.rs"]
mod archive;
#[cfg(not(feature = "unproved"))]
mod exports;
mod listing;
mod reads;
mod refusal;
mod version;

pub use listing::{carries, list, File, Listing, Piece};
pub use reads::{most_breaks, Read};
pub use refusal::Refusal;
pub use version::Version;

/// Whether the calls are the proved ones. They are unless the feature `unproved` has put the plain twin in their place.
pub const PROVED: bool = cfg!(not(feature = "unproved"));
/// The bytes of a block.
pub const BLOCK: usize = 512;
/// The most files of a disk, and the places of the list that [`which`] writes.
pub const MOST_FILES: usize = 64;
/// What the call answers for [`Which::FitsAlready`].
const FITS_ALREADY: u64 = 256;

/// What [`which`] answers.
#[derive(Clone, Copy, Debug, PartialEq, Eq)]
pub enum Which {
    /// So many blocks are free: nothing has to be removed.
    FitsAlready,
    /// How many files there are of which one has to be removed: as many ids stand in the list. 0 says that the removal
    /// of any one file is not enough.
    Removals(usize),
}

/// The answer, or the refusal that a negative number stands for.
fn answer(number: i64) -> Result<u64, Refusal> {
    match u64::try_from(number) {
        Ok(n) => Ok(n),
        Err(_) => Err(Refusal::of_number(number.unsigned_abs()).expect("the calls have no other refusals")),
    }
}

/// Makes the catalogue that of a disk with no file, and answers the number of its blocks. The disk is not changed.
pub fn format(cat: &mut [u8], disk: &[u8]) -> Result<u64, Refusal> {
    answer(archive::format(cat, disk))
}

/// Adds a file with the pages of `content`, 512 bytes each, and answers their number. The file lies in one piece for
/// each 1 of that number in binary; see [`File`].
pub fn add(cat: &mut [u8], disk: &mut [u8], id: u16, content: &[u8]) -> Result<u64, Refusal> {
    answer(archive::add(cat, disk, id, content))
}

/// Removes a file, joins free space, and answers how many blocks were copied for it: at most [`carries`] of the free
/// blocks and the file's. Free buddies are joined first, and nothing is copied for them; that need not make the number
/// of a removal the least that there could be.
pub fn remove(cat: &mut [u8], disk: &mut [u8], id: u16) -> Result<u64, Refusal> {
    answer(archive::remove(cat, disk, id))
}

/// Puts a file with the pages of `content` in the place of the one with this id, as [`remove`] and then [`add`] would,
/// and answers how many blocks the removal copied: at most [`carries`] of the free blocks and the old file's. Byte 6 of
/// the content, its quality letter, has to rank above that of the old file's first page: R, D, Q, M, lowest first, and
/// below these any other byte that is stored. The new file may have the free blocks and those of the old one.
pub fn replace(cat: &mut [u8], disk: &mut [u8], id: u16, content: &[u8]) -> Result<u64, Refusal> {
    answer(archive::replace(cat, disk, id, content))
}

/// Fills `out` with pages of a file from the page `first` on, and answers how many pages that is. Pages count from 0.
pub fn read(cat: &[u8], disk: &[u8], id: u16, first: u64, out: &mut [u8]) -> Result<u64, Refusal> {
    answer(archive::read(cat, disk, id, first, out))
}

/// How often the drive seeks when the pages of a file are read in order: at how many places in page order a piece does
/// not start right after the one before it. At most [`most_breaks`] of the file's blocks.
pub fn breaks(cat: &[u8], id: u16) -> Result<u64, Refusal> {
    answer(archive::breaks(cat, id))
}

/// The number of free blocks.
pub fn free(cat: &[u8]) -> Result<u64, Refusal> {
    answer(archive::free(cat))
}

/// The number of blocks, if the catalogue is sound and the disk as long as it says.
pub fn check(cat: &[u8], disk: &[u8]) -> Result<u64, Refusal> {
    answer(archive::check(cat, disk))
}

/// Finds the files whose removal alone would let a file of `n` blocks in: those whose blocks and the free ones together
/// are at least `n`. Writes their ids to `places`, which has [`MOST_FILES`] places: by the number of blocks that
/// [`remove`] would answer, lowest first, and for equal numbers by lower id. Zeros follow, and if `n` blocks are free
/// already there are only zeros. That there may be 64 files already is not looked at.
pub fn which(cat: &[u8], n: u64, places: &mut [u16]) -> Result<Which, Refusal> {
    answer(archive::which(cat, n, places)).map(|number| match number {
        FITS_ALREADY => Which::FitsAlready,
        count => Which::Removals(count as usize),
    })
}

//! A second implementation of the event disk manager, written from the scope document and its requests alone.
//!
//! It keeps no list of pieces. A disk is a map from each block to its owner: free, or a page of a file. The catalogue
//! is derived from that map. The bytes of a catalogue are read by rules that are written apart from the map.
//!
//! Beside it stand the plain book, which sees only the number of blocks and the arguments of the calls, the limit on
//! the blocks that a removal copies, and the least number of pieces that blocks can be divided into.

#![forbid(unsafe_code)]

mod blocks;
mod book;
mod calls;
mod carry;
mod division;
mod moving;
mod reading;
mod replacing;
mod versions;
mod which;
mod writing;

pub use blocks::{BlockMap, Owner};
pub use book::Book;
pub use calls::{
    add, breaks, check, format, free, read, removal_copies, removal_merges, removal_moves, remove, Answer,
};
pub use carry::carries;
pub use division::{all_divisions, divisions, least_pieces, Division};
pub use moving::{buddies_first, two_lowest, Choice, Merge, Move};
pub use reading::{sound, Catalogue, Entry, Pair};
pub use replacing::replace;
pub use versions::Version;
pub use which::{which, FITS_ALREADY};
pub use writing::write;

/// The bytes of a block.
pub const BLOCK: usize = 512;
/// The most files of a disk.
pub const MOST_FILES: usize = 64;

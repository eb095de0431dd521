//! A plain twin of the proved event disk manager.
//!
//! It has the manager's algorithm and its checks, in ordinary safe Rust: a call loads the whole catalogue into a table,
//! checks that it is sound, with a look at every two pieces for a block that they share, works on the table, and
//! stores it once. Nothing is proved of it. It is what a careful programmer would write, and so the measure of what
//! the proofs cost at run time.

#![forbid(unsafe_code)]

mod calls;
mod disk;
mod gathered;
mod letter;
mod loading;
mod pieces;
mod section;
mod storing;
mod table;
mod version;
mod which;

pub use calls::{add, breaks, check, format, free, read, remove, replace, Answer};
pub use version::Version;
pub use which::{which, FITS_ALREADY};

/// The bytes of a block.
pub const BLOCK: usize = 512;
/// The most files of a disk.
pub const MOST_FILES: usize = 64;
/// The greatest height of a section in any version.
const MOST_HEIGHT: u32 = Version::LARGE.most_blocks.ilog2();
/// The most pieces of a file, and of the free blocks: one of each height.
const MOST_OF_ONE: usize = MOST_HEIGHT as usize + 1;

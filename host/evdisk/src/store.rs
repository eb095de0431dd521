//! A disk in its files, opened for one command and locked for its time.

use crate::commit::{self, go_on};
use crate::paths::Paths;
use crate::redo::Block;
use crate::{files, Failure};
use event_disk::{Piece, Version, BLOCK};
use std::fs::{File, TryLockError};
use std::io::Write;
use std::ops::Range;
use std::path::Path;

/// The bytes of a disk and of its catalogue, as they are lent to the manager's calls.
#[derive(Clone, Debug, PartialEq, Eq)]
pub struct Disk {
    pub catalogue: Vec<u8>,
    pub blocks: Vec<u8>,
}

impl Disk {
    /// A disk with the catalogue of its file, and as many blocks as the image, none of which is read yet.
    pub fn unread(paths: &Paths, image: &File) -> Result<Disk, Failure> {
        Ok(Disk { catalogue: catalogue(paths)?, blocks: unread_blocks(paths, image)? })
    }

    /// A disk with all blocks read.
    pub fn whole(paths: &Paths, image: &File) -> Result<Disk, Failure> {
        let mut disk = Disk::unread(paths, image)?;
        disk.read(paths, image, 0..disk.blocks.len())?;
        Ok(disk)
    }

    /// Reads the blocks of pieces, which must be sections of this disk.
    pub fn read_pieces(&mut self, paths: &Paths, image: &File, pieces: &[Piece]) -> Result<(), Failure> {
        pieces.iter().try_for_each(|piece| {
            let Range { start, end } = piece.range();
            self.read(paths, image, start * BLOCK..end * BLOCK)
        })
    }

    /// Reads some bytes. Parts that are all zero are not written, since they are zero before: so they take no memory.
    fn read(&mut self, paths: &Paths, image: &File, bytes: Range<usize>) -> Result<(), Failure> {
        files::read_parts(image, &paths.image, bytes, |at, part| {
            if part.iter().any(|byte| *byte != 0) {
                self.blocks[at..at + part.len()].copy_from_slice(part);
            }
        })
    }

    /// The blocks of pieces with their numbers, in the order of the pieces.
    pub fn blocks_of(&self, pieces: &[Piece]) -> Vec<Block<'_>> {
        let block = |number: usize| (number as u64, &self.blocks[number * BLOCK..][..BLOCK]);
        pieces.iter().flat_map(|piece| piece.range()).map(block).collect()
    }
}

/// The greatest of the numbers that the versions of the catalogue have.
pub fn greatest(number: impl Fn(Version) -> usize) -> usize {
    Version::ALL.into_iter().map(number).max().expect("there are versions")
}

/// The bytes of the catalogue's file. Of one that is too long only as much is read as shows that.
fn catalogue(paths: &Paths) -> Result<Vec<u8>, Failure> {
    let file = files::open(&paths.catalogue)?;
    files::read_at_most(&file, &paths.catalogue, greatest(|version| version.catalogue) as u64 + 1)
}

/// As many zero bytes as the image has, for calls that look at the disk's length alone or only write to it. They take
/// no memory before they are written. An image that is too long gives no more than shows that.
pub fn unread_blocks(paths: &Paths, image: &File) -> Result<Vec<u8>, Failure> {
    let most = greatest(|version| version.most_blocks) * BLOCK + 1;
    Ok(vec![0; files::length(image, &paths.image)?.min(most as u64) as usize])
}

/// An opened and locked disk with no unfinished change. The lock ends with the command.
pub struct Store {
    pub paths: Paths,
    pub image: File,
}

impl Store {
    /// Opens a disk that the command only looks at. Several may look at once.
    pub fn to_look(paths: Paths) -> Result<Store, Failure> {
        let image = files::open(&paths.image)?;
        locked(&paths.image, image.try_lock_shared())?;
        if !files::is_there(&paths.redo)? {
            return Ok(Store { paths, image });
        }
        drop(image);
        let redo = paths.redo.clone();
        Store::to_change(paths).map_err(|failure| {
            let pending = "a removal or replacement that was cut off is to be completed first, from";
            failure.and(&format!("{pending} {}", redo.display()))
        })
    }

    /// Opens a disk that the command may change. No other command may use it meanwhile.
    pub fn to_change(paths: Paths) -> Result<Store, Failure> {
        let image = files::open_to_write(&paths.image)?;
        locked(&paths.image, image.try_lock())?;
        if commit::recover(&paths, &image, &mut go_on)? {
            let note = "completed a removal or replacement that had been cut off";
            let _ = writeln!(std::io::stderr(), "evdisk: note: {}: {note}", paths.image.display());
        }
        Ok(Store { paths, image })
    }

    /// The disk with none of its blocks read.
    pub fn unread(&self) -> Result<Disk, Failure> {
        Disk::unread(&self.paths, &self.image)
    }

    /// The disk with all its blocks read.
    pub fn whole(&self) -> Result<Disk, Failure> {
        Disk::whole(&self.paths, &self.image)
    }

    /// The bytes of the catalogue.
    pub fn catalogue(&self) -> Result<Vec<u8>, Failure> {
        catalogue(&self.paths)
    }
}

/// Says in words that a lock was not to be had.
fn locked(path: &Path, lock: Result<(), TryLockError>) -> Result<(), Failure> {
    lock.map_err(|why| match why {
        TryLockError::WouldBlock => Failure::file(path, "another evdisk is at work on this disk; try again"),
        TryLockError::Error(why) => Failure::file(path, why),
    })
}

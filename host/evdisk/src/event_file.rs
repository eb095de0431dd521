//! The file with an event that is to come to a disk.

use crate::{files, Failure};
use event_disk::BLOCK;
use std::fs::File;
use std::io::{self, Read};
use std::path::Path;

/// A block's length as files count.
const BYTES: u64 = BLOCK as u64;

/// An opened file with an event, and its length, unless it is a pipe or a device, which does not tell it.
pub struct EventFile<'a> {
    path: &'a Path,
    file: File,
    length: Option<u64>,
}

impl EventFile<'_> {
    /// Opens an event's file.
    pub fn open(path: &Path) -> Result<EventFile<'_>, Failure> {
        let file = files::open(path)?;
        let about = file.metadata().map_err(|why| Failure::file(path, why))?;
        Ok(EventFile { path, file, length: about.is_file().then_some(about.len()) })
    }

    /// Its bytes. Of one with more blocks than there is room for only so much is read as gives the same refusal: a
    /// block more than that, so at least the first, and the same bytes past whole blocks.
    pub fn content(&self, room: u64) -> Result<Vec<u8>, Failure> {
        files::read_at_most(&self.file, self.path, (room + 1) * BYTES + self.length.unwrap_or(0) % BYTES)
    }

    /// How many blocks it has, or 0 if its length is one that an add refuses. So many of its bytes have been read. If
    /// it does not tell its length it is read on, but only until it has more than the most blocks that count.
    pub fn blocks(&self, read: usize, most: u64) -> Result<u64, Failure> {
        let length = match self.length {
            Some(length) => length,
            None => {
                let rest = ((most + 1) * BYTES).saturating_sub(read as u64);
                let passed = io::copy(&mut (&self.file).take(rest), &mut io::sink());
                read as u64 + passed.map_err(|why| Failure::file(self.path, why))?
            }
        };
        Ok(if length.is_multiple_of(BYTES) { length / BYTES } else { 0 })
    }
}

//! A removal or replacement written down whole, so that it can be done again after it was cut off.
//!
//! The bytes of a redo file, numbers having 8 bytes, most significant first: the mark `EVDISKR2`; the blocks of the
//! disk; the checksum of the catalogue before; the length of the catalogue after, and that catalogue; the length of the
//! shift log before; the length of its new line, and the line; how many blocks are changed, and for each its number and
//! its 512 bytes; the checksum of all that.
//!
//! An older tool, which knew the small catalogue alone, wrote the mark `EVDISKR1` and no length of the catalogue. Its
//! redo files are read too.

use crate::checksum::{checksum, Summed};
use crate::store::greatest;
use event_disk::{Version, BLOCK};
use std::io::{self, Write};

const MARK: &[u8; 8] = b"EVDISKR2";
const OLD_MARK: &[u8; 8] = b"EVDISKR1";
/// The bytes of a number.
const NUMBER: usize = 8;

/// The most bytes of a redo file that are read: as many as one has that changes all blocks of the greatest disk, with
/// room for the line of the log.
pub fn most() -> u64 {
    let blocks = greatest(|version| version.most_blocks) * (NUMBER + BLOCK);
    (blocks + greatest(|version| version.catalogue) + (1 << 16)) as u64
}

/// A block: its number and its bytes.
pub type Block<'a> = (u64, &'a [u8]);

/// A removal or replacement that is decided.
#[derive(Clone, Debug, PartialEq, Eq)]
pub struct Redo<'a> {
    /// The blocks of the disk.
    pub blocks: u64,
    /// The checksum of the catalogue before it.
    pub before: u64,
    /// The catalogue after it.
    pub catalogue: &'a [u8],
    /// The length of the shift log before it.
    pub log_length: u64,
    /// The line of the shift log for it.
    pub log_line: &'a [u8],
    /// The blocks that it changes, with their new bytes.
    pub changed: Vec<Block<'a>>,
}

/// What is left to read of a redo file.
struct Rest<'a>(&'a [u8]);

impl<'a> Rest<'a> {
    fn bytes(&mut self, count: usize) -> Option<&'a [u8]> {
        let (taken, rest) = self.0.split_at_checked(count)?;
        self.0 = rest;
        Some(taken)
    }

    fn number(&mut self) -> Option<u64> {
        Some(u64::from_be_bytes(self.bytes(NUMBER)?.try_into().ok()?))
    }

    /// As many bytes as a number before them says.
    fn counted(&mut self) -> Option<&'a [u8]> {
        let count = self.number()?.try_into().ok()?;
        self.bytes(count)
    }
}

/// Writes numbers and counted bytes.
struct Writer<W>(Summed<W>);

impl<W: Write> Writer<W> {
    fn number(&mut self, number: u64) -> io::Result<()> {
        self.0.write_all(&number.to_be_bytes())
    }

    fn counted(&mut self, bytes: &[u8]) -> io::Result<()> {
        self.number(bytes.len() as u64)?;
        self.0.write_all(bytes)
    }
}

impl<'a> Redo<'a> {
    /// Writes the redo file.
    pub fn write(&self, out: impl Write) -> io::Result<()> {
        let mut out = Writer(Summed::new(out));
        out.0.write_all(MARK)?;
        out.number(self.blocks)?;
        out.number(self.before)?;
        out.counted(self.catalogue)?;
        out.number(self.log_length)?;
        out.counted(self.log_line)?;
        out.number(self.changed.len() as u64)?;
        for (block, content) in &self.changed {
            out.number(*block)?;
            out.0.write_all(content)?;
        }
        out.number(out.0.sum)
    }

    /// What a redo file holds, if the file is whole.
    pub fn of_bytes(bytes: &'a [u8]) -> Option<Redo<'a>> {
        let (body, sum) = bytes.split_at_checked(bytes.len().checked_sub(NUMBER)?)?;
        if checksum(body).to_be_bytes() != sum {
            return None;
        }
        let mut rest = Rest(body);
        let old = match rest.bytes(MARK.len())? {
            mark if mark == MARK => false,
            mark if mark == OLD_MARK => true,
            _ => return None,
        };
        let (blocks, before) = (rest.number()?, rest.number()?);
        let catalogue = if old { rest.bytes(Version::SMALL.catalogue)? } else { rest.counted()? };
        Version::of_length(catalogue.len())?;
        let (log_length, log_line) = (rest.number()?, rest.counted()?);
        let mut changed = Vec::new();
        for _ in 0..rest.number()? {
            let block = rest.number().filter(|block| *block < blocks)?;
            changed.push((block, rest.bytes(BLOCK)?));
        }
        rest.0.is_empty().then_some(Redo { blocks, before, catalogue, log_length, log_line, changed })
    }
}

#[cfg(test)]
mod tests {
    use super::*;

    /// A removal from a disk with a catalogue of so many bytes.
    fn with_redo<T>(catalogue: usize, then: impl FnOnce(Redo) -> T) -> T {
        let (catalogue, pages) = (vec![5; catalogue], [[7; BLOCK], [8; BLOCK]]);
        let changed = vec![(3, &pages[0][..]), (0, &pages[1][..])];
        then(Redo { blocks: 4, before: 99, catalogue: &catalogue, log_length: 1000, log_line: b"a line\n", changed })
    }

    fn bytes(redo: &Redo) -> Vec<u8> {
        let mut bytes = Vec::new();
        redo.write(&mut bytes).expect("memory takes all bytes");
        bytes
    }

    /// A redo file as the older tool wrote it: another mark, and no length before the catalogue.
    fn old(bytes: &[u8]) -> Vec<u8> {
        let mut old = [OLD_MARK, &bytes[8..24], &bytes[32..bytes.len() - NUMBER]].concat();
        old.extend_from_slice(&checksum(&old).to_be_bytes());
        old
    }

    #[test]
    fn a_whole_redo_file_gives_the_removal_back() {
        for Version { catalogue, .. } in Version::ALL {
            with_redo(catalogue, |redo| assert_eq!(Redo::of_bytes(&bytes(&redo)), Some(redo)));
        }
    }

    #[test]
    fn a_redo_file_of_the_older_tool_gives_the_removal_back() {
        with_redo(Version::SMALL.catalogue, |redo| assert_eq!(Redo::of_bytes(&old(&bytes(&redo))), Some(redo)));
        with_redo(Version::LARGE.catalogue, |redo| assert_eq!(Redo::of_bytes(&old(&bytes(&redo))), None));
    }

    #[test]
    fn a_redo_file_cut_anywhere_or_with_any_byte_changed_gives_none() {
        let new = with_redo(Version::SMALL.catalogue, |redo| bytes(&redo));
        for bytes in [old(&new), new] {
            for at in 0..bytes.len() {
                assert_eq!(Redo::of_bytes(&bytes[..at]), None, "cut at {at}");
                let mut wrong = bytes.clone();
                wrong[at] ^= 0x40;
                assert_eq!(Redo::of_bytes(&wrong), None, "changed at {at}");
            }
        }
    }

    #[test]
    fn a_redo_file_must_hold_a_catalogue_of_a_known_length_and_blocks_of_its_disk() {
        for catalogue in [0, 4095, 4097, 8192, 16_383, 16_385] {
            with_redo(catalogue, |redo| assert_eq!(Redo::of_bytes(&bytes(&redo)), None, "{catalogue} bytes"));
        }
        with_redo(Version::SMALL.catalogue, |redo| {
            let past = Redo { changed: vec![(4, &[7; BLOCK])], ..redo };
            assert_eq!(Redo::of_bytes(&bytes(&past)), None);
        });
    }
}

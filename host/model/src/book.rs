//! The plain book: lines of an id and its pages. It sees C and the arguments of the calls, and nothing else.

use std::collections::{BTreeMap, BTreeSet};

use crate::{Answer, BLOCK, MOST_FILES};

/// The book of a disk.
#[derive(Clone, Debug, PartialEq, Eq)]
pub struct Book {
    blocks: u64,
    lines: BTreeMap<u16, Vec<u8>>,
}

/// The pages that a length of bytes is: 8 if it is none.
fn pages_in(length: usize) -> Result<u64, u8> {
    match length % BLOCK {
        0 if length > 0 => Ok((length / BLOCK) as u64),
        _ => Err(8),
    }
}

/// The place of a line's quality letter, that of its first page, in "RDQM": none for any other byte, and below all.
fn rank(pages: &[u8]) -> Option<usize> {
    "RDQM".bytes().position(|letter| pages[6] == letter)
}

impl Book {
    /// The book of a disk of C blocks, with no line.
    pub fn new(blocks: u64) -> Book {
        Book { blocks, lines: BTreeMap::new() }
    }

    /// The ids and pages of the lines, by rising id.
    pub fn lines(&self) -> impl ExactSizeIterator<Item = (u16, &[u8])> {
        self.lines.iter().map(|(&id, pages)| (id, &pages[..]))
    }

    /// The pages of a line: 5 for id 0, 6 if no line has the id.
    fn line(&self, id: u16) -> Result<&[u8], u8> {
        match id {
            0 => Err(5),
            _ => self.lines.get(&id).map(|pages| &pages[..]).ok_or(6),
        }
    }

    /// The number of pages of a line, 0 if there is none.
    pub fn pages(&self, id: u16) -> u64 {
        self.line(id).map_or(0, |pages| (pages.len() / BLOCK) as u64)
    }

    /// f: C less the pages in all lines.
    pub fn free(&self) -> u64 {
        self.blocks - self.lines.keys().map(|&id| self.pages(id)).sum::<u64>()
    }

    /// Check answers C.
    pub fn check(&self) -> u64 {
        self.blocks
    }

    /// Writes a line, and answers the count of its pages.
    pub fn add(&mut self, id: u16, content: &[u8]) -> Answer {
        if id == 0 {
            return Err(5);
        }
        if self.lines.contains_key(&id) {
            return Err(7);
        }
        let n = pages_in(content.len())?;
        if self.lines.len() >= MOST_FILES {
            return Err(10);
        }
        if n > self.free() {
            return Err(11);
        }
        self.lines.insert(id, content.to_vec());
        Ok(n)
    }

    /// Strikes a line. The number that a removal answers is not the book's.
    pub fn remove(&mut self, id: u16) -> Result<(), u8> {
        self.line(id)?;
        self.lines.remove(&id);
        Ok(())
    }

    /// Strikes a line and writes another of its id, if its letter ranks above the old one's and its pages fit in its
    /// place. The number that a replacement answers is not the book's.
    pub fn replace(&mut self, id: u16, content: &[u8]) -> Result<(), u8> {
        let old = self.line(id)?;
        let n = pages_in(content.len())?;
        let letter = rank(content).ok_or(12)?;
        if rank(old).is_some_and(|old_letter| letter <= old_letter) {
            return Err(13);
        }
        if n > self.free() + self.pages(id) {
            return Err(11);
        }
        self.lines.insert(id, content.to_vec());
        Ok(())
    }

    /// The pages that a read of an output of some bytes gives.
    pub fn read(&self, id: u16, first: u64, output_length: usize) -> Result<&[u8], u8> {
        let line = self.line(id)?;
        let count = pages_in(output_length)?;
        match first.checked_add(count) {
            Some(end) if end <= self.pages(id) => Ok(&line[first as usize * BLOCK..end as usize * BLOCK]),
            _ => Err(9),
        }
    }

    /// Whether breaks is refused. The number that it answers is not the book's.
    pub fn breaks(&self, id: u16) -> Result<(), u8> {
        self.line(id).map(|_| ())
    }

    /// The ids of the lines whose pages and f together are n or more, or none of this if n is at most f already. The
    /// order in which they are listed is not the book's.
    pub fn which(&self, n: u64, places: usize) -> Result<Option<BTreeSet<u16>>, u8> {
        if n == 0 {
            return Err(8);
        }
        if places != MOST_FILES {
            return Err(14);
        }
        let f = self.free();
        let enough = self.lines.keys().copied().filter(|&id| self.pages(id) + f >= n);
        Ok(if n <= f { None } else { Some(enough.collect()) })
    }
}

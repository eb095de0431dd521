//! A disk with its catalogue for the tests, and catalogues laid down by hand.

use twin::{add, format, read, remove, Version, BLOCK};

/// First block and length.
pub type Pair = (u32, u32);

/// A catalogue with its version, and a disk.
pub struct Station {
    pub version: Version,
    pub cat: Vec<u8>,
    pub disk: Vec<u8>,
}

/// The bytes of a number, by the version.
fn field(version: Version, number: u32) -> Vec<u8> {
    number.to_be_bytes()[4 - version.field..].to_vec()
}

fn pairs_bytes(version: Version, pairs: &[Pair]) -> Vec<u8> {
    pairs.iter().flat_map(|&(first, length)| [field(version, first), field(version, length)].concat()).collect()
}

/// The bytes of a catalogue: header, files with their pairs, free pairs, and zero bytes to the end.
pub fn bytes_of(version: Version, blocks: usize, files: &[(u16, &[Pair])], free: &[Pair]) -> Vec<u8> {
    let mut bytes = version.number.to_be_bytes().to_vec();
    bytes.extend(field(version, blocks as u32));
    bytes.extend((files.len() as u16).to_be_bytes());
    for (id, pairs) in files {
        bytes.extend(id.to_be_bytes());
        bytes.extend(field(version, pairs.iter().map(|pair| pair.1).sum()));
        bytes.extend(pairs_bytes(version, pairs));
    }
    bytes.extend(pairs_bytes(version, free));
    bytes.resize(version.catalogue, 0);
    bytes
}

/// The content of a file: each page is filled with its own number.
pub fn content(id: u16, pages: usize) -> Vec<u8> {
    (0..pages).flat_map(|page| [(16 * id + page as u16) as u8; BLOCK]).collect()
}

impl Station {
    pub fn fresh(version: Version, blocks: usize) -> Station {
        let mut station = Station { version, cat: vec![0xaa; version.catalogue], disk: vec![0xbb; blocks * BLOCK] };
        assert_eq!(format(&mut station.cat, &station.disk), Ok(blocks as u64));
        station
    }

    pub fn with(mut self, id: u16, pages: usize) -> Station {
        assert_eq!(add(&mut self.cat, &mut self.disk, id, &content(id, pages)), Ok(pages as u64));
        assert_eq!(self.pages(id, pages), content(id, pages));
        self
    }

    pub fn without(mut self, id: u16, copied: u64) -> Station {
        assert_eq!(remove(&mut self.cat, &mut self.disk, id), Ok(copied));
        self
    }

    pub fn pages(&self, id: u16, pages: usize) -> Vec<u8> {
        let mut out = vec![0; pages * BLOCK];
        assert_eq!(read(&self.cat, &self.disk, id, 0, &mut out), Ok(pages as u64));
        out
    }

    pub fn has(self, files: &[(u16, &[Pair])], free: &[Pair]) -> Station {
        assert_eq!(self.cat, bytes_of(self.version, self.disk.len() / BLOCK, files, free));
        self
    }
}

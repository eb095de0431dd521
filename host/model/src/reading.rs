//! The bytes of a catalogue, read by the rules of soundness one after the other.

use std::ops::Range;

use crate::{Version, MOST_FILES};

/// A pair: the first block and the length of a section.
#[derive(Clone, Copy, Debug, PartialEq, Eq)]
pub struct Pair {
    pub first: u32,
    pub length: u32,
}

impl Pair {
    /// The numbers of its blocks.
    pub fn blocks(&self) -> Range<usize> {
        let first = self.first as usize;
        first..first + self.length as usize
    }
}

/// The entry of a file: its id, its n, and its pairs by rising first block.
#[derive(Clone, Debug, PartialEq, Eq)]
pub struct Entry {
    pub id: u16,
    pub blocks: u32,
    pub pairs: Vec<Pair>,
}

/// What a catalogue says: its version, C, the entries by rising id, and the free pairs by rising first block.
#[derive(Clone, Debug, PartialEq, Eq)]
pub struct Catalogue {
    pub version: Version,
    pub blocks: u32,
    pub entries: Vec<Entry>,
    pub free: Vec<Pair>,
}

impl Catalogue {
    /// f: C less the sum of all n.
    pub fn free_blocks(&self) -> u32 {
        self.blocks - self.entries.iter().map(|e| e.blocks).sum::<u32>()
    }

    /// The entry of an id.
    pub fn entry(&self, id: u16) -> Option<&Entry> {
        self.entries.iter().find(|e| e.id == id)
    }
}

/// Bytes of which fields, most significant byte first, are taken from the front.
pub(crate) struct Fields<'a> {
    pub(crate) rest: &'a [u8],
}

impl Fields<'_> {
    /// The next field of so many bytes, 4 at most, or nothing past the end.
    pub(crate) fn number(&mut self, width: usize) -> Option<u32> {
        let (field, rest) = self.rest.split_at_checked(width)?;
        self.rest = rest;
        Some(field.iter().fold(0, |number, &byte| 256 * number + u32::from(byte)))
    }

    /// The next field of 2 bytes.
    pub(crate) fn short(&mut self) -> Option<u16> {
        self.number(2).map(|number| number as u16)
    }

    /// One pair for each 1 in the binary number of blocks.
    fn pairs(&mut self, blocks: u32, version: Version) -> Option<Vec<Pair>> {
        let pair = |_| Some(Pair { first: self.number(version.field)?, length: self.number(version.field)? });
        (0..blocks.count_ones()).map(pair).collect()
    }

    fn entry(&mut self, version: Version) -> Option<Entry> {
        let (id, blocks) = (self.short()?, self.number(version.field)?);
        Some(Entry { id, blocks, pairs: self.pairs(blocks, version)? })
    }
}

/// The catalogue that these bytes are, or nothing if they are not a sound one.
pub fn sound(bytes: &[u8]) -> Option<Catalogue> {
    let catalogue = parsed(bytes)?;
    let rules = [ids_rise, files_have_pieces, free_has_pieces, no_block_twice];
    rules.iter().all(|rule| rule(&catalogue)).then_some(catalogue)
}

/// Header, entries, free pairs, and zero bytes to the end; the version suits the buffer; C, k and the sum of all n are
/// within their limits.
fn parsed(bytes: &[u8]) -> Option<Catalogue> {
    let mut fields = Fields { rest: bytes };
    let version = Version::of_buffer(bytes.len(), fields.short()?)?;
    let (blocks, count) = (fields.number(version.field)?, fields.short()?);
    if !(1..=version.most_blocks).contains(&(blocks as usize)) || usize::from(count) > MOST_FILES {
        return None;
    }
    let entries = (0..count).map(|_| fields.entry(version)).collect::<Option<Vec<_>>>()?;
    // Each n has up to 4 bytes: their sum may need more.
    let held: u64 = entries.iter().map(|e| u64::from(e.blocks)).sum();
    let free_blocks = u64::from(blocks).checked_sub(held)?;
    let free = fields.pairs(u32::try_from(free_blocks).ok()?, version)?;
    let any_bit = fields.rest.iter().fold(0, |bits, byte| bits | byte);
    (any_bit == 0).then_some(Catalogue { version, blocks, entries, free })
}

/// Ids are 1 or more, and each is above the one before.
fn ids_rise(catalogue: &Catalogue) -> bool {
    let mut below = 0;
    catalogue.entries.iter().all(|entry| {
        let rises = entry.id > below;
        below = entry.id;
        rises
    })
}

/// Each file has at least one block, and pieces for its n.
fn files_have_pieces(catalogue: &Catalogue) -> bool {
    catalogue.entries.iter().all(|e| e.blocks >= 1 && pieces_of(&e.pairs, e.blocks, catalogue))
}

/// The free pairs are pieces for f.
fn free_has_pieces(catalogue: &Catalogue) -> bool {
    pieces_of(&catalogue.free, catalogue.free_blocks(), catalogue)
}

/// Pairs are sections of the disk, sorted by first block, of distinct lengths that sum to n.
fn pieces_of(pairs: &[Pair], n: u32, catalogue: &Catalogue) -> bool {
    let sections = pairs.iter().all(|pair| is_section(pair, catalogue));
    let sorted = pairs.iter().zip(pairs.iter().skip(1)).all(|(a, b)| a.first < b.first);
    let twice = |i: usize| pairs[..i].iter().any(|p| p.length == pairs[i].length);
    let distinct = !(0..pairs.len()).any(twice);
    let sum: u64 = pairs.iter().map(|p| u64::from(p.length)).sum();
    sections && sorted && distinct && sum == u64::from(n)
}

/// The length is one of 1, 2, 4 up to the greatest, the first block is a multiple of it, and the end is within C.
fn is_section(pair: &Pair, catalogue: &Catalogue) -> bool {
    let is_length = (0..=catalogue.version.most_height()).any(|height| pair.length == 1 << height);
    let end = u64::from(pair.first) + u64::from(pair.length);
    is_length && pair.first.is_multiple_of(pair.length) && end <= u64::from(catalogue.blocks)
}

/// No two pairs share a block. The pairs have been found to be sections of the disk before.
fn no_block_twice(catalogue: &Catalogue) -> bool {
    let mut taken = vec![false; catalogue.blocks as usize];
    let held = catalogue.entries.iter().flat_map(|e| &e.pairs);
    for pair in held.chain(&catalogue.free) {
        let section = &mut taken[pair.blocks()];
        if section.contains(&true) {
            return false;
        }
        section.fill(true);
    }
    true
}

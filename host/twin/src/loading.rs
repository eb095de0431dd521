//! A table read from the bytes of a catalogue, if they are sound.

use crate::gathered::Gathered;
use crate::pieces::Pieces;
use crate::section::Section;
use crate::table::{Entry, Table};
use crate::{Version, MOST_FILES, MOST_OF_ONE};

/// The bytes that are left, of which fields are read from the front, and the bytes of a number of blocks.
struct Fields<'a> {
    rest: &'a [u8],
    width: usize,
}

impl Fields<'_> {
    fn field<const BYTES: usize>(&mut self) -> Option<[u8; BYTES]> {
        let (field, rest) = self.rest.split_first_chunk()?;
        self.rest = rest;
        Some(*field)
    }

    /// A field of 2 bytes in every version.
    fn short(&mut self) -> Option<u32> {
        Some(u16::from_be_bytes(self.field()?).into())
    }

    /// A number of blocks, in the bytes that the version has for it.
    fn blocks(&mut self) -> Option<u32> {
        match self.width {
            2 => self.short(),
            _ => Some(u32::from_be_bytes(self.field()?)),
        }
    }

    /// One pair for each 1 of n, if a sound layout can have so many.
    fn pairs<const PLACES: usize>(&mut self, n: u32) -> Option<Pieces<PLACES>> {
        let count = n.count_ones() as usize;
        if count > MOST_OF_ONE {
            return None;
        }
        let mut pieces = Pieces::NONE;
        for _ in 0..count {
            let (first, length) = (self.blocks()?, self.blocks()?);
            pieces.push(Section::of_pair(first, length)?);
        }
        Some(pieces)
    }

    /// A file's entry, if it is one that a sound layout can have, with its n.
    fn entry(&mut self) -> Option<(Entry, u32)> {
        let (id, n) = (self.short()?, self.blocks()?);
        if id == 0 || n == 0 {
            return None;
        }
        let mut pieces = self.pairs(n)?;
        if pieces.blocks() != n || !pieces.in_order() {
            return None;
        }
        pieces.sort_by_page();
        Some((Entry { id, pieces }, n))
    }
}

/// The table of a catalogue of the version's length, if it is sound.
pub fn load(cat: &[u8], version: Version) -> Option<Table> {
    debug_assert_eq!(cat.len(), version.catalogue);
    let mut fields = Fields { rest: cat, width: version.field };
    let (number, blocks, count) = (fields.short()?, fields.blocks()?, fields.short()?);
    let has_blocks = (1..=version.most_blocks as u32).contains(&blocks);
    if number != u32::from(version.number) || !has_blocks || count > MOST_FILES as u32 {
        return None;
    }
    let mut table = Table::of_blocks(version, blocks);
    let mut free = blocks;
    for _ in 0..count {
        let (entry, n) = fields.entry()?;
        free = free.checked_sub(n)?;
        table.push(entry);
    }
    table.free = fields.pairs(free)?;
    let is_sound = table.free.blocks() == free && is_zero(fields.rest) && is_sound(&table);
    is_sound.then_some(table)
}

/// Whether all bytes are zero. None of them ends the loop, so that the compiler can look at many at once.
fn is_zero(bytes: &[u8]) -> bool {
    bytes.iter().fold(0, |all, byte| all | byte) == 0
}

/// Whether ids rise, the free pieces are in order, all pieces are on the disk, and no two share a block.
fn is_sound(table: &Table) -> bool {
    let ids_rise = table.files().windows(2).all(|two| two[0].id < two[1].id);
    ids_rise && table.free.in_order() && Gathered::of(table).is_some_and(|all| !all.any_shared())
}

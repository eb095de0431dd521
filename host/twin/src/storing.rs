//! A table stored as the bytes of a catalogue.

use crate::pieces::Pieces;
use crate::table::Table;
use crate::Version;

/// The bytes that are left, to which fields are written from the front, and the bytes of a number of blocks.
struct Fields<'a> {
    rest: &'a mut [u8],
    width: usize,
}

impl Fields<'_> {
    fn put<const BYTES: usize>(&mut self, bytes: [u8; BYTES]) {
        let (field, rest) = std::mem::take(&mut self.rest).split_at_mut(BYTES);
        field.copy_from_slice(&bytes);
        self.rest = rest;
    }

    /// A field of 2 bytes in every version.
    fn put_short(&mut self, value: u32) {
        self.put((value as u16).to_be_bytes());
    }

    /// A number of blocks, in the bytes that the version has for it.
    fn put_blocks(&mut self, value: u32) {
        match self.width {
            2 => self.put_short(value),
            _ => self.put(value.to_be_bytes()),
        }
    }

    fn put_pairs<const PLACES: usize>(&mut self, pieces: &Pieces<PLACES>) {
        for piece in pieces.all() {
            self.put_blocks(piece.first);
            self.put_blocks(piece.length());
        }
    }
}

impl<'a> Fields<'a> {
    /// Writes the header.
    fn of_catalogue(cat: &'a mut [u8], version: Version, blocks: u32, files: usize) -> Fields<'a> {
        let mut fields = Fields { rest: cat, width: version.field };
        fields.put_short(version.number.into());
        fields.put_blocks(blocks);
        fields.put_short(files as u32);
        fields
    }

    /// Writes the free pairs, and zero bytes to the end.
    fn end_with<const PLACES: usize>(mut self, free: &Pieces<PLACES>) {
        self.put_pairs(free);
        self.rest.fill(0);
    }
}

/// Writes header, file entries, free pairs, and zero bytes to the end.
pub fn store(cat: &mut [u8], table: &Table) {
    let mut fields = Fields::of_catalogue(cat, table.version, table.blocks, table.files().len());
    for entry in table.files() {
        fields.put_short(entry.id);
        fields.put_blocks(entry.pieces.blocks());
        let mut pieces = entry.pieces;
        pieces.sort_by_first();
        fields.put_pairs(&pieces);
    }
    fields.end_with(&table.free);
}

/// Writes the catalogue of a disk with no file.
pub fn store_fresh(cat: &mut [u8], version: Version, blocks: u32) {
    Fields::of_catalogue(cat, version, blocks, 0).end_with(&Table::fresh_pieces(blocks));
}

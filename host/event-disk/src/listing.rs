//! What a sound catalogue lists: its files, their pieces and the free pieces.

use crate::{breaks, free, Refusal, Version};
use std::ops::Range;

/// Blocks that follow each other: the first, and how many.
#[derive(Clone, Copy, Debug, PartialEq, Eq, PartialOrd, Ord)]
pub struct Piece {
    pub first: u32,
    pub length: u32,
}

impl Piece {
    /// The numbers of its blocks.
    pub fn range(self) -> Range<usize> {
        self.first as usize..self.first as usize + self.length as usize
    }
}

/// A file: its id, its blocks, its breaks, and its pieces by rising first block. There is one piece for each 1 of its
/// blocks in binary, and no division of them into pieces whose lengths are powers of two has fewer.
#[derive(Clone, Debug, PartialEq, Eq)]
pub struct File {
    pub id: u16,
    pub blocks: u32,
    /// What the proved call [`breaks`] answers.
    pub breaks: u32,
    pub pieces: Vec<Piece>,
}

impl File {
    /// The pieces in page order: longest first.
    pub fn in_page_order(&self) -> Vec<Piece> {
        let mut pieces = self.pieces.clone();
        pieces.sort_by_key(|piece| std::cmp::Reverse(piece.length));
        pieces
    }
}

/// The contents of a catalogue: its version, the blocks of its disk, its files by rising id, and the free pieces, which
/// are as few for the free blocks as those of a file are for its own.
#[derive(Clone, Debug, PartialEq, Eq)]
pub struct Listing {
    pub version: Version,
    pub blocks: u32,
    pub free: u32,
    pub files: Vec<File>,
    pub free_pieces: Vec<Piece>,
}

/// What is left to read of a sound catalogue.
struct Fields<'a> {
    rest: &'a [u8],
    version: Version,
}

impl Fields<'_> {
    /// The number in a field of so many bytes, most significant first.
    fn number(&mut self, bytes: usize) -> u32 {
        let (field, rest) = self.rest.split_at(bytes);
        self.rest = rest;
        field.iter().fold(0, |number, byte| number << 8 | u32::from(*byte))
    }

    /// A field of 2 bytes in all versions.
    fn short(&mut self) -> u16 {
        self.number(2) as u16
    }

    /// A field for a number of blocks or of a block.
    fn blocks(&mut self) -> u32 {
        self.number(self.version.field)
    }

    /// As many pairs as the number of blocks has ones.
    fn pieces(&mut self, blocks: u32) -> Vec<Piece> {
        (0..blocks.count_ones()).map(|_| Piece { first: self.blocks(), length: self.blocks() }).collect()
    }

    /// A file of the catalogue, which is given whole for its breaks.
    fn file(&mut self, cat: &[u8]) -> Result<File, Refusal> {
        let (id, blocks) = (self.short(), self.blocks());
        Ok(File { id, blocks, breaks: breaks(cat, id)? as u32, pieces: self.pieces(blocks) })
    }
}

/// Lists a catalogue. The proved call `free` refuses it first if it is not sound, so that the fields are only read
/// from catalogues whose numbers hold together.
pub fn list(cat: &[u8]) -> Result<Listing, Refusal> {
    free(cat)?;
    let version = Version::of_catalogue(cat).expect("the version of a sound catalogue suits its length");
    let mut fields = Fields { rest: cat, version };
    let (_number, blocks, count) = (fields.short(), fields.blocks(), fields.short());
    let files = (0..count).map(|_| fields.file(cat)).collect::<Result<Vec<File>, Refusal>>()?;
    let free = blocks - files.iter().map(|file| file.blocks).sum::<u32>();
    Ok(Listing { version, blocks, free, files, free_pieces: fields.pieces(free) })
}

/// The contract's limit on the blocks that a removal copies: the sum of the place values at which free blocks plus
/// file blocks carry in binary.
pub fn carries(free: u64, blocks: u64) -> u64 {
    (0..63).map(|h| 1u64 << h).filter(|place| free % (2 * place) + blocks % (2 * place) >= 2 * place).sum()
}

//! Replace: a removal and an add, once nothing refuses it.

use crate::calls::{add, catalogue_in, refuse_first, remove, wrong_disk, wrong_length, Answer};
use crate::{BlockMap, Catalogue, BLOCK};

/// The place of the quality letter in a record, counted from 0.
const LETTER: usize = 6;

/// A quality letter and those that rank above it; nothing for a byte that is none.
fn from_letter_up(letter: u8) -> Option<&'static [u8]> {
    match letter {
        b'R' => Some(b"RDQM"),
        b'D' => Some(b"DQM"),
        b'Q' => Some(b"QM"),
        b'M' => Some(b"M"),
        _ => None,
    }
}

/// The letter of a stored file, in the block of its page 0. There is none without the file, or without the block.
fn stored_letter(catalogue: &Catalogue, disk: &[u8], id: u16) -> Option<u8> {
    let block = *BlockMap::of(catalogue).pages(id).first()?;
    disk.get(block * BLOCK + LETTER).copied()
}

/// Whether replace is refused: the conditions stand in the order of the request, in which 11 comes last.
fn look_for_replace(cat: &[u8], disk: &[u8], id: u16, content: &[u8]) -> Result<(), u8> {
    let catalogue = catalogue_in(cat)?;
    let n = catalogue.entry(id).map_or(0, |entry| entry.blocks);
    let stored = stored_letter(&catalogue, disk, id);
    let up = content.get(LETTER).and_then(|&letter| from_letter_up(letter));
    refuse_first(&[
        (4, wrong_disk(&catalogue, disk)),
        (5, id == 0),
        (6, catalogue.entry(id).is_none()),
        (8, wrong_length(content.len())),
        (12, up.is_none()),
        (13, up.is_some_and(|up| stored.is_some_and(|letter| up.contains(&letter)))),
        (11, content.len() / BLOCK > (catalogue.free_blocks() + n) as usize),
    ])
}

/// Replace. After the look neither of the two calls is refused.
pub fn replace(cat: &mut [u8], disk: &mut [u8], id: u16, content: &[u8]) -> Answer {
    look_for_replace(cat, disk, id, content)?;
    let copied = remove(cat, disk, id)?;
    add(cat, disk, id, content)?;
    Ok(copied)
}

//! A call with its arguments, and the lengths of the buffers that are lent to it.

use std::fmt;

use model::{Version, BLOCK};

use crate::letters;
use crate::numbers::mix;

/// A call and its arguments. Contents and outputs are given by their length in bytes, contents by the byte that their
/// first page has in the place of its quality letter too, and lists by their places.
#[derive(Clone, Copy, Debug, PartialEq, Eq)]
pub enum Call {
    Format,
    Add { id: u16, length: usize, letter: u8 },
    Remove { id: u16 },
    Replace { id: u16, length: usize, letter: u8 },
    Read { id: u16, first: u64, length: usize },
    Breaks { id: u16 },
    Free,
    Check,
    Which { n: u64, places: usize },
}

/// The names of the calls in the order of `Call::number`.
pub const NAMES: [&str; 9] = ["format", "add", "remove", "replace", "read", "breaks", "free", "check", "which"];

/// The refusals that each call gives, in the order of its checks.
pub const GIVEN: [&[usize]; NAMES.len()] = [
    &[1, 2],
    &[1, 3, 4, 5, 7, 8, 10, 11],
    &[1, 3, 4, 5, 6],
    &[1, 3, 4, 5, 6, 8, 12, 13, 11],
    &[1, 3, 4, 5, 6, 8, 9],
    &[1, 3, 5, 6],
    &[1, 3],
    &[1, 3, 4],
    &[1, 3, 8, 14],
];

impl Call {
    /// The place of the call in `NAMES`.
    pub fn number(&self) -> usize {
        match self {
            Call::Format => 0,
            Call::Add { .. } => 1,
            Call::Remove { .. } => 2,
            Call::Replace { .. } => 3,
            Call::Read { .. } => 4,
            Call::Breaks { .. } => 5,
            Call::Free => 6,
            Call::Check => 7,
            Call::Which { .. } => 8,
        }
    }

    /// The id of the file that an answer of the call takes out.
    pub fn removed(&self) -> Option<u16> {
        match self {
            Call::Remove { id } | Call::Replace { id, .. } => Some(*id),
            _ => None,
        }
    }

    /// The id of the file that an answer of the call puts on the disk.
    pub fn placed(&self) -> Option<u16> {
        match self {
            Call::Add { id, .. } | Call::Replace { id, .. } => Some(*id),
            _ => None,
        }
    }

    /// Whether an answer of the call changes catalogue or disk.
    pub fn changes(&self) -> bool {
        *self == Call::Format || self.removed().is_some() || self.placed().is_some()
    }

    /// Fills a buffer with the content of the call, if it has one. The call has a number.
    pub fn stamp(&self, content: &mut Vec<u8>, number: u64) {
        if let Call::Add { id, length, letter } | Call::Replace { id, length, letter } = *self {
            stamp(content, number, id, length, letter);
        }
    }

    /// The bytes of the output, 0 for a call without one.
    pub fn output_length(&self) -> usize {
        match self {
            Call::Read { length, .. } => *length,
            _ => 0,
        }
    }

    /// The places of the list, 0 for a call without one.
    pub fn places(&self) -> usize {
        match self {
            Call::Which { places, .. } => *places,
            _ => 0,
        }
    }
}

impl fmt::Display for Call {
    fn fmt(&self, f: &mut fmt::Formatter<'_>) -> fmt::Result {
        f.write_str(NAMES[self.number()])?;
        match self {
            Call::Add { id, length, letter } | Call::Replace { id, length, letter } => {
                write!(f, " id {id}, content of {length} bytes with the letter '{}'", letter.escape_ascii())
            }
            Call::Remove { id } | Call::Breaks { id } => write!(f, " id {id}"),
            Call::Read { id, first, length } => write!(f, " id {id}, first page {first}, output of {length} bytes"),
            Call::Which { n, places } => write!(f, " n {n}, list of {places} places"),
            Call::Format | Call::Free | Call::Check => Ok(()),
        }
    }
}

/// The lengths of the catalogue and disk buffers that a call is lent.
#[derive(Clone, Copy, Debug, PartialEq, Eq)]
pub struct Lent {
    pub cat: usize,
    pub disk: usize,
}

impl Lent {
    /// The right lengths for a disk of some blocks.
    pub fn right(version: Version, blocks: usize) -> Lent {
        Lent { cat: version.catalogue, disk: blocks * BLOCK }
    }
}

impl fmt::Display for Lent {
    fn fmt(&self, f: &mut fmt::Formatter<'_>) -> fmt::Result {
        write!(f, "catalogue of {} bytes, disk of {} bytes", self.cat, self.disk)
    }
}

/// Fills a buffer with a content of some bytes, whose pages all differ: they are stamped with the number of the call,
/// the id and the page. The first page has the letter, and each later one a letter of its own.
pub fn stamp(content: &mut Vec<u8>, call: u64, id: u16, length: usize, letter: u8) {
    content.resize(length, 0);
    for (page, bytes) in content.chunks_mut(BLOCK).enumerate() {
        // 22 bits for the page, 16 for the id, the others for the call.
        let mut word = mix(call << 38 ^ u64::from(id) << 22 ^ page as u64);
        let letter = if page == 0 { letter } else { letters::RANKED[word as usize % letters::RANKED.len()] };
        for place in bytes.chunks_mut(8) {
            place.copy_from_slice(&word.to_le_bytes()[..place.len()]);
            word = word.wrapping_add(0x9E37_79B9_7F4A_7C15);
        }
        if let Some(byte) = bytes.get_mut(letters::PLACE) {
            *byte = letter;
        }
    }
}

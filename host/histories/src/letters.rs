//! The quality letters that contents are given. What is right of them is the business of the model and of the book;
//! here they are only chosen.

use crate::numbers::Numbers;

/// The place of the letter in a page.
pub const PLACE: usize = 6;
/// The letters, lowest first.
pub const RANKED: [u8; 4] = *b"RDQM";
/// Bytes that are no letter.
const OTHERS: [u8; 11] = [0, b' ', b'C', b'E', b'L', b'N', b'P', b'S', b'm', b'r', 255];

/// The letters that rank above that of a file with these pages.
pub fn above(pages: &[u8]) -> &'static [u8] {
    match pages[PLACE] {
        b'R' => b"DQM",
        b'D' => b"QM",
        b'Q' => b"M",
        b'M' => b"",
        _ => &RANKED,
    }
}

/// A letter for a new file: mostly a low one, so that the file can be replaced more than once.
pub fn low(numbers: &mut Numbers) -> u8 {
    match numbers.within(0, 9) {
        0..=3 => b'R',
        4..=5 => b'D',
        6 => b'Q',
        7 => b'M',
        _ => numbers.pick(&OTHERS),
    }
}

/// Any letter, or a byte that is none.
pub fn any(numbers: &mut Numbers) -> u8 {
    if numbers.one_in(5) {
        numbers.pick(&OTHERS)
    } else {
        numbers.pick(&RANKED)
    }
}

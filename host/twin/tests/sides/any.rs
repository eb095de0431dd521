//! Calls with any arguments.

use super::numbers::Numbers;
use super::Call;
use twin::{BLOCK, MOST_FILES};

/// A buffer's length: mostly pages, now and then with a byte more.
pub fn buffer_length(numbers: &mut Numbers, pages: usize) -> usize {
    BLOCK * numbers.below(pages + 1) + usize::from(numbers.below(40) == 0)
}

/// A list's length: mostly the right one.
pub fn list_length(numbers: &mut Numbers) -> usize {
    match numbers.below(12) {
        0 => numbers.below(2 * MOST_FILES + 2),
        _ => MOST_FILES,
    }
}

/// A content whose first page has one of these bytes in the place of its quality letter.
fn any_content(numbers: &mut Numbers, pages: usize, letters: &[u8]) -> Vec<u8> {
    let byte = numbers.next() as u8;
    let length = buffer_length(numbers, pages);
    let mut content: Vec<u8> = (0..length).map(|i| byte.wrapping_add((i / BLOCK) as u8)).collect();
    if let Some(letter) = content.get_mut(6) {
        *letter = letters[numbers.below(letters.len())];
    }
    content
}

/// Any call: ids below `ids`, contents up to `pages`. So many blocks are free, and mostly more are asked for.
pub fn any_call(numbers: &mut Numbers, ids: usize, pages: usize, free: u64) -> Call {
    let id = numbers.below(ids) as u16;
    match numbers.below(16) {
        0..=4 => Call::Add(id, any_content(numbers, pages, b"RRRDDQM?")),
        5..=7 => Call::Remove(id),
        8..=9 => Call::Replace(id, any_content(numbers, pages, b"RDQQMMM?")),
        10 => Call::Read(id, numbers.below(pages + 2) as u64),
        11 => Call::Breaks(id),
        12 => Call::Free,
        13 => Call::Check,
        _ => Call::Which(match numbers.below(10) {
            0 => numbers.below(2) as u64,
            1 => numbers.next() >> numbers.below(64),
            _ => free + numbers.below(pages + 2) as u64,
        }),
    }
}

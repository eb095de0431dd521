//! Calls with wrong arguments.

use model::{Book, Version, BLOCK, MOST_FILES};

use crate::call::{Call, Lent};
use crate::letters;
use crate::mixes::held;
use crate::numbers::Numbers;

/// A call of which each argument may be wrong, several at once too.
pub fn wild_call(ids: &[u16], book: &Book, numbers: &mut Numbers) -> Call {
    let (held, f) = (held(book), book.free() as usize);
    let id = match numbers.within(0, 5) {
        0 => 0,
        1..=3 if !held.is_empty() => numbers.pick(&held),
        _ => numbers.pick(ids),
    };
    let n = book.pages(id) as usize;
    let added = wild_length(&[1, 2, n, f, f + 1], numbers);
    let replaced = wild_length(&[1, 2, n, f, f + 1, f + n, f + n + 1, f + n + 1], numbers);
    let read = wild_length(&[1, 2, n, n + 1], numbers);
    let first = numbers.pick(&[0, 0, 1, n.saturating_sub(1), n, 65_536]) as u64;
    match numbers.within(0, 14) {
        0..=2 => Call::Add { id, length: added, letter: letters::any(numbers) },
        3 => Call::Remove { id },
        4..=6 => Call::Replace { id, length: replaced, letter: letters::any(numbers) },
        7..=9 => Call::Read { id, first: if numbers.one_in(9) { u64::MAX - first } else { first }, length: read },
        10 => Call::Breaks { id },
        11 => Call::Free,
        12 => Call::Check,
        _ => wild_which(f as u64, n as u64, numbers),
    }
}

/// For blocks around those that a file just suffices for where so many are free, for none and for more than there can
/// be; the list may have other places than the most files.
pub fn wild_which(f: u64, n: u64, numbers: &mut Numbers) -> Call {
    let most = Version::LARGE.most_blocks as u64;
    let n = numbers.pick(&[0, 0, 1, f, f + 1, f + n, f + n + 1, most, most + 1, u32::MAX.into(), 1 << 32, u64::MAX]);
    let places = numbers.pick(&[0, 1, MOST_FILES - 1, MOST_FILES, MOST_FILES, MOST_FILES + 1, 2 * MOST_FILES, 256]);
    Call::Which { n, places }
}

/// The bytes of some of these pages, or of none, or no multiple of a page.
fn wild_length(pages: &[usize], numbers: &mut Numbers) -> usize {
    let bytes = numbers.pick(pages) * BLOCK;
    numbers.pick(&[0, 1, 511, 513, bytes, bytes, bytes, bytes + 1])
}

/// Buffers of which one or both have a wrong length. A catalogue may have the length of another version.
pub fn wrong_lengths(right: Lent, numbers: &mut Numbers) -> Lent {
    let Lent { cat, disk } = right;
    let mut cats = vec![0, 1, cat - 2, cat - 1, cat + 1, 2 * cat];
    cats.extend(Version::ALL.iter().map(|version| version.catalogue).filter(|&other| other != cat));
    let wrong_cat = numbers.pick(&cats);
    let wrong_disk = numbers.pick(&[0, 1, 511, disk - 512, disk - 1, disk + 1, disk + 512]);
    match numbers.within(0, 4) {
        0 | 1 => Lent { cat: wrong_cat, disk },
        2 | 3 => Lent { cat, disk: wrong_disk },
        _ => Lent { cat: wrong_cat, disk: wrong_disk },
    }
}

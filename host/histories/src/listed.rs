//! A list of removals beside the removals themselves, which the proved manager makes apart from it.

use std::collections::BTreeSet;

use event_disk::Refusal;
use model::{Answer, Entry, BLOCK, FITS_ALREADY};

use crate::both::{told, Difference};
use crate::guarded::compare_from;
use crate::history::MOST_WHOLE;
use crate::watch::require;

/// Makes the removal of each of these files, by itself, on copies of a catalogue: what it answers, and the id. What the
/// blocks hold is of no account for it.
fn removals<'a>(
    cat: &[u8],
    blocks: u32,
    files: impl Iterator<Item = &'a Entry>,
) -> Result<BTreeSet<(u64, u16)>, Refusal> {
    let mut disk = vec![0; blocks as usize * BLOCK];
    files.map(|file| Ok((event_disk::remove(&mut cat.to_vec(), &mut disk, file.id)?, file.id))).collect()
}

/// An answer for n blocks is right if it and its list are those of the removals that leave n free blocks, fewest copies
/// first and then by lower id. On disks that are too long for it nothing is compared.
pub fn compare_listed(cat: &[u8], n: u64, answer: Answer, list: &[u16]) -> Result<(), Difference> {
    let Some(catalogue) = model::sound(cat).filter(|catalogue| catalogue.blocks as usize <= MOST_WHOLE) else {
        return Ok(());
    };
    let f = u64::from(catalogue.free_blocks());
    let helping = catalogue.entries.iter().filter(|entry| n > f && f + u64::from(entry.blocks) >= n);
    let removals = removals(cat, catalogue.blocks, helping).map_err(|why| format!("a removal apart: {why}"))?;
    let number = if n <= f { FITS_ALREADY } else { removals.len() as u64 };
    require(answer == Ok(number), || format!("{} beside removals that give {number}", told(answer)))?;
    let mut right: Vec<u16> = removals.into_iter().map(|(_, id)| id).collect();
    right.resize(list.len(), 0);
    compare_from(0, "list beside the removals", list, &right)
}

#[cfg(test)]
mod tests {
    use model::{Version, MOST_FILES};

    use super::*;

    /// Of 16 blocks the ids 1 to 4 have 3 each and 6 has 2, so that 2 are free: their removals copy 1, 2, 2, 1 and 0.
    fn five_files() -> Vec<u8> {
        let (mut cat, mut disk) = (vec![0; Version::SMALL.catalogue], vec![0; 16 * BLOCK]);
        model::format(&mut cat, &disk).expect("it is a disk");
        for (id, pages) in [(1, 3), (2, 3), (3, 3), (4, 3), (6, 2)] {
            model::add(&mut cat, &mut disk, id, &vec![0; pages * BLOCK]).expect("there is space");
        }
        cat
    }

    fn is_right(n: u64, answer: u64, ids: &[u16]) -> bool {
        let mut list = [0; MOST_FILES];
        list[..ids.len()].copy_from_slice(ids);
        compare_listed(&five_files(), n, Ok(answer), &list).is_ok()
    }

    #[test]
    fn another_order_is_seen() {
        assert!(is_right(3, 5, &[6, 1, 4, 2, 3]) && is_right(5, 4, &[1, 4, 2, 3]));
        for ids in [[1, 2, 3, 4, 6], [6, 4, 1, 2, 3], [6, 1, 4, 3, 2], [6, 1, 2, 3, 4], [6, 2, 3, 1, 4]] {
            assert!(!is_right(3, 5, &ids), "{ids:?}");
        }
    }

    #[test]
    fn another_number_or_other_ids_are_seen() {
        for (n, answer, ids) in [(2, FITS_ALREADY, &[][..]), (6, 0, &[]), (5, 4, &[1, 4, 2, 3])] {
            assert!(is_right(n, answer, ids), "{n}");
            for other in (0..=64).chain([FITS_ALREADY]).filter(|&other| other != answer) {
                assert!(!is_right(n, other, ids), "{other} for {n}");
            }
        }
        assert!(!is_right(2, FITS_ALREADY, &[6, 1, 4, 2, 3]) && !is_right(6, 0, &[1]));
        assert!(!is_right(5, 4, &[1, 4, 2, 6]) && !is_right(5, 4, &[1, 4, 2, 3, 6]));
        assert!(!is_right(5, 3, &[1, 4, 2]) && !is_right(5, 5, &[6, 1, 4, 2, 3]));
    }
}

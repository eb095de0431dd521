//! Sound catalogues of all kinds, also such as no list of calls leads to.

use model::{Catalogue, Entry, Pair, Version, MOST_FILES};

use crate::numbers::Numbers;

/// A sound catalogue of a disk of some blocks: the disk is cut into sections, which go to owners of distinct lengths.
pub fn any_sound(version: Version, blocks: u32, numbers: &mut Numbers) -> Catalogue {
    let sections = cut(blocks, numbers);
    let heights = 0..=blocks.ilog2();
    let most = heights.clone().map(|height| of_height(&sections, height).count()).max().unwrap_or(1);
    let owners = numbers.within(most, (MOST_FILES + 1).min(most + 12));
    let mut held: Vec<Vec<Pair>> = vec![Vec::new(); owners];
    let mut order: Vec<usize> = (0..owners).collect();
    for height in heights {
        numbers.shuffle(&mut order);
        for (pair, &owner) in of_height(&sections, height).zip(&order) {
            held[owner].push(*pair);
        }
    }
    for pairs in &mut held {
        pairs.sort_by_key(|pair| pair.first);
    }
    let free = held.pop().unwrap_or_default();
    held.retain(|pairs| !pairs.is_empty());
    let ids = distinct_ids(held.len(), numbers);
    let entries = ids.into_iter().zip(held).map(|(id, pairs)| entry(id, pairs)).collect();
    Catalogue { version, blocks, entries, free }
}

/// The sound catalogue of a version that has as many pairs as any can have. Each of the owners, 64 files and the free
/// part, has a piece of each height up to one, and as many of them as there is space for have one of the next height.
pub fn most_pairs(version: Version) -> Catalogue {
    let owners = MOST_FILES + 1;
    let heights = (version.most_blocks / owners + 1).ilog2();
    let next = (version.most_blocks - owners * ((1 << heights) - 1)) >> heights;
    let mut held = vec![Vec::new(); owners];
    let mut blocks = 0;
    // Pieces that lie one after the other by falling length all start at a multiple of theirs.
    for height in (0..=heights).rev() {
        let count = if height == heights { next } else { owners };
        for pairs in &mut held[..count] {
            pairs.push(Pair { first: blocks, length: 1 << height });
            blocks += 1 << height;
        }
    }
    let free = held.pop().unwrap_or_default();
    let entries = (1..).zip(held).map(|(id, pairs)| entry(id, pairs)).collect();
    Catalogue { version, blocks, entries, free }
}

/// The sound catalogue of 2^(top + 1) blocks on which the removal of id 1, a file of one block, copies most: at each
/// height below the top the lowest free section is met by one that is not its buddy.
pub fn staircase(version: Version, top: u32) -> Catalogue {
    let free_piece = |height: u32| Pair { first: 3 << height, length: 1 << height };
    let held_piece = |height: u32| Pair { first: 2 << height, length: 1 << height };
    let free = [Pair { first: 0, length: 1 }].into_iter().chain((1..top).map(free_piece)).collect();
    let held = [Pair { first: 1, length: 1 }].into_iter().chain((1..top).map(held_piece)).collect();
    let entries = vec![entry(1, vec![held_piece(0)]), entry(2, held), entry(3, vec![free_piece(0)])];
    Catalogue { version, blocks: 2 << top, entries, free }
}

fn of_height(sections: &[Pair], height: u32) -> impl Iterator<Item = &Pair> {
    sections.iter().filter(move |pair| pair.length == 1 << height)
}

fn entry(id: u16, pairs: Vec<Pair>) -> Entry {
    Entry { id, blocks: pairs.iter().map(|pair| pair.length).sum(), pairs }
}

/// Sections that tile the disk, of each height at most as many as there can be owners.
fn cut(blocks: u32, numbers: &mut Numbers) -> Vec<Pair> {
    let mut sections = Vec::new();
    let mut first = 0;
    for height in (0..=blocks.ilog2()).rev().filter(|height| blocks >> height & 1 == 1) {
        sections.push(Pair { first, length: 1 << height });
        first += 1 << height;
    }
    for _ in 0..numbers.within(0, (blocks as usize).min(400)) {
        let place = numbers.within(0, sections.len() - 1);
        let Pair { first, length } = sections[place];
        let half = length / 2;
        let fellows = sections.iter().filter(|pair| pair.length == half).count();
        if half > 0 && fellows + 2 <= MOST_FILES + 1 {
            sections[place] = Pair { first, length: half };
            sections.push(Pair { first: first + half, length: half });
        }
    }
    sections
}

/// So many ids, rising: close together or far apart.
fn distinct_ids(count: usize, numbers: &mut Numbers) -> Vec<u16> {
    let mut ids = std::collections::BTreeSet::new();
    let greatest = numbers.pick(&[200, 65_535]);
    while ids.len() < count {
        ids.insert(numbers.within(1, greatest) as u16);
    }
    ids.into_iter().collect()
}

#[cfg(test)]
mod tests {
    use model::{carries, sound, BLOCK};

    use super::*;
    use crate::spoil::spoil;
    use crate::tests::bytes;
    use crate::twists::twisted;

    #[test]
    fn layouts_are_sound_and_a_twist_mostly_is_not() {
        let mut numbers = Numbers::from_seed(2);
        for version in Version::ALL {
            let most = version.most_blocks as u32;
            for blocks in (1..300).chain([4095, 4096, most - 1, most]) {
                let catalogue = any_sound(version, blocks, &mut numbers);
                assert_eq!(sound(&bytes(&catalogue)), Some(catalogue));
            }
            let own_bytes = |catalogue: &Catalogue| bytes(&Catalogue { version, ..catalogue.clone() });
            let twist = |numbers: &mut Numbers| sound(&own_bytes(&twisted(version, 24, numbers))).is_none();
            let broken = (0..2000).filter(|_| twist(&mut numbers)).count();
            assert!(broken > 1000, "{broken}");
            let spoilt = |numbers: &mut Numbers| {
                let catalogue = any_sound(version, 24, numbers);
                let mut bytes = bytes(&catalogue);
                spoil(&mut bytes, &catalogue, numbers);
                sound(&bytes).is_none()
            };
            let broken = (0..2000).filter(|_| spoilt(&mut numbers)).count();
            assert!(broken > 1000, "{broken}");
        }
    }

    #[test]
    fn the_removal_that_copies_most() {
        for (version, top, copied) in
            [(Version::SMALL, 11, 2047), (Version::LARGE, 11, 2047), (Version::LARGE, 19, 524_287)]
        {
            let catalogue = staircase(version, top);
            let blocks = 2 << top;
            assert_eq!(
                (catalogue.blocks, catalogue.free_blocks(), carries(copied, 1)),
                (blocks, copied as u32, copied)
            );
            let copies = model::removal_copies(&bytes(&catalogue), &vec![0; blocks as usize * BLOCK], 1);
            assert_eq!(copies.map(|copies| copies.len() as u64), Ok(copied));
        }
    }

    /// 390 pairs on 4,095 blocks in version 1; 908 in version 2, which use 7,656 bytes.
    #[test]
    fn the_catalogue_of_the_most_pairs() {
        for (version, blocks, pairs, used) in
            [(Version::SMALL, 4095, 390, 1822), (Version::LARGE, 1_048_511, 908, 7656)]
        {
            let catalogue = most_pairs(version);
            assert_eq!((catalogue.blocks, catalogue.entries.len()), (blocks, MOST_FILES));
            let held: usize = catalogue.entries.iter().map(|entry| entry.pairs.len()).sum();
            assert_eq!(held + catalogue.free.len(), pairs);
            let bytes = bytes(&catalogue);
            assert_eq!(bytes.iter().rposition(|&byte| byte != 0), Some(used - 1));
            assert_eq!(sound(&bytes), Some(catalogue));
        }
    }
}

//! Catalogues that break one rule of soundness and keep the others where that can be had.

use model::{BlockMap, Catalogue, Entry, Pair, Version, MOST_FILES};

use crate::layouts::any_sound;
use crate::numbers::Numbers;

/// A catalogue with one rule broken, mostly: the disk has at most so many blocks, or too many for any disk.
pub fn twisted(version: Version, blocks: u32, numbers: &mut Numbers) -> Catalogue {
    let mut catalogue = any_sound(version, blocks, numbers);
    match numbers.within(0, 11) {
        0 => unaligned(&mut catalogue, numbers),
        1 => no_length(&mut catalogue, numbers),
        2 => catalogue = many_files(version, numbers.within(63, 70) as u32),
        3 => catalogue = too_large(version, numbers),
        4 => shrink(&mut catalogue, numbers),
        5 | 6 => relocate(&mut catalogue, numbers),
        7 => no_blocks(&mut catalogue, numbers),
        8 => unsorted(&mut catalogue, numbers),
        9 => other_version(&mut catalogue, numbers),
        10 => catalogue = wrapped(version, blocks, numbers),
        _ => wrong_id(&mut catalogue, numbers),
    }
    catalogue
}

/// The pairs of one owner.
fn any_owner<'a>(catalogue: &'a mut Catalogue, numbers: &mut Numbers) -> &'a mut Vec<Pair> {
    let owner = numbers.within(0, catalogue.entries.len());
    match catalogue.entries.get_mut(owner) {
        Some(entry) => &mut entry.pairs,
        None => &mut catalogue.free,
    }
}

/// Lays the pieces one after the other in another order: no block is shared, but some do not start at a multiple.
fn unaligned(catalogue: &mut Catalogue, numbers: &mut Numbers) {
    let held = catalogue.entries.iter_mut().flat_map(|entry| &mut entry.pairs);
    let mut pairs: Vec<&mut Pair> = held.chain(&mut catalogue.free).collect();
    numbers.shuffle(&mut pairs);
    let mut first = 0;
    for pair in pairs {
        pair.first = first;
        first += pair.length;
    }
    sort(catalogue);
}

/// Moves the border between two pieces of one owner that adjoin: their lengths keep their sum, but are no lengths.
fn no_length(catalogue: &mut Catalogue, numbers: &mut Numbers) {
    let pairs = any_owner(catalogue, numbers);
    let border = pairs.windows(2).position(|two| two[0].first + two[0].length == two[1].first);
    if let Some(place) = border {
        let step = numbers.within(1, pairs[place].length.max(pairs[place + 1].length) as usize) as u32;
        if numbers.one_in(2) && step < pairs[place].length {
            pairs[place].length -= step;
            pairs[place + 1] = Pair { first: pairs[place + 1].first - step, length: pairs[place + 1].length + step };
        } else if step < pairs[place + 1].length {
            pairs[place].length += step;
            pairs[place + 1] = Pair { first: pairs[place + 1].first + step, length: pairs[place + 1].length - step };
        }
    }
}

/// So many files of one block, on 128: too many from 65 on.
fn many_files(version: Version, count: u32) -> Catalogue {
    let single = |first| Entry { id: first as u16 + 1, blocks: 1, pairs: vec![Pair { first, length: 1 }] };
    let entries = (0..count).map(single).collect();
    let mut free = Vec::new();
    let mut first = count;
    for length in (0..7).map(|height| 1 << height).filter(|length| (128 - count) & length != 0) {
        free.push(Pair { first, length });
        first += length;
    }
    Catalogue { version, blocks: 128, entries, free }
}

/// More blocks than a disk has, or a length of twice the greatest.
fn too_large(version: Version, numbers: &mut Numbers) -> Catalogue {
    let most = version.most_blocks as u32;
    if numbers.one_in(8) {
        return Catalogue {
            version,
            blocks: 2 * most,
            entries: Vec::new(),
            free: vec![Pair { first: 0, length: 2 * most }],
        };
    }
    any_sound(version, most + numbers.within(1, 104) as u32, numbers)
}

/// The version that another buffer has: by its number alone, or with all fields as it has them.
fn other_version(catalogue: &mut Catalogue, numbers: &mut Numbers) {
    let others = Version::ALL.into_iter().filter(|&version| version != catalogue.version);
    let other = numbers.pick(&others.collect::<Vec<_>>());
    catalogue.version = match numbers.one_in(2) {
        true => Version { number: other.number, ..catalogue.version },
        false => other,
    };
}

/// Files whose n add up to 0 in a field, so that the free pairs of the whole disk seem to be right: each has half of
/// what a field can say, or two have that much together. Or 64 files with nearly as much as a field can say each.
fn wrapped(version: Version, blocks: u32, numbers: &mut Numbers) -> Catalogue {
    let half = 1 << (8 * version.field - 1);
    let other = numbers.within(1, half as usize - 1) as u32;
    let pairs =
        |n: u32| (0..32).filter(move |place| n >> place & 1 == 1).map(|place| Pair { first: 0, length: 1 << place });
    let entry = |id: u16, n: u32| Entry { id, blocks: n, pairs: pairs(n).collect() };
    let entries = match numbers.within(0, 2) {
        0 => (1..=2 * numbers.within(1, MOST_FILES / 2) as u16).map(|id| entry(id, half)).collect(),
        1 => vec![entry(1, half - other), entry(2, half + other)],
        _ => (1..=MOST_FILES as u16).map(|id| entry(id, half - 1 + half - (other & 0xFF))).collect(),
    };
    let free = BlockMap::fresh(version, blocks).catalogue().free;
    Catalogue { version, blocks, entries, free }
}

/// Halves a piece: blocks that no one holds, and a wrong sum.
fn shrink(catalogue: &mut Catalogue, numbers: &mut Numbers) {
    let pairs = any_owner(catalogue, numbers);
    if !pairs.is_empty() {
        let place = numbers.within(0, pairs.len() - 1);
        pairs[place].length = (pairs[place].length / 2).max(1);
    }
}

/// Puts a piece to another section of its length: on blocks of others, or past the end.
fn relocate(catalogue: &mut Catalogue, numbers: &mut Numbers) {
    let blocks = catalogue.blocks;
    let pairs = any_owner(catalogue, numbers);
    if !pairs.is_empty() {
        let place = numbers.within(0, pairs.len() - 1);
        let length = pairs[place].length;
        pairs[place].first = numbers.within(0, (blocks / length) as usize) as u32 * length;
    }
    sort(catalogue);
}

/// A file of no blocks.
fn no_blocks(catalogue: &mut Catalogue, numbers: &mut Numbers) {
    let id = numbers.field().max(1);
    if catalogue.entry(id).is_none() {
        catalogue.entries.push(Entry { id, blocks: 0, pairs: Vec::new() });
        catalogue.entries.sort_by_key(|entry| entry.id);
    }
}

/// Two pairs of one owner the other way round.
fn unsorted(catalogue: &mut Catalogue, numbers: &mut Numbers) {
    let pairs = any_owner(catalogue, numbers);
    if pairs.len() > 1 {
        let place = numbers.within(1, pairs.len() - 1);
        pairs.swap(place - 1, place);
    }
}

/// An id that is 0, or that does not rise.
fn wrong_id(catalogue: &mut Catalogue, numbers: &mut Numbers) {
    let ids: Vec<u16> = catalogue.entries.iter().map(|entry| entry.id).collect();
    if !ids.is_empty() {
        let place = numbers.within(0, ids.len() - 1);
        let other = numbers.pick(&ids);
        catalogue.entries[place].id = numbers.pick(&[0, other]);
    }
}

fn sort(catalogue: &mut Catalogue) {
    for entry in &mut catalogue.entries {
        entry.pairs.sort_by_key(|pair| pair.first);
    }
    catalogue.free.sort_by_key(|pair| pair.first);
}

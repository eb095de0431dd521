//! The reads of files beside their breaks, on every place that a file can have on a small disk, and along histories of
//! calls: there is one read more than breaks, and the blocks of the reads are those of the pages in their order.

mod history;

use event_disk::{most_breaks, File, Version};
use std::collections::BTreeSet;

/// The blocks of all pages in order, from the pieces alone.
fn pages(file: &File) -> Vec<usize> {
    let longest_first = (0..32).rev().map(|height| 1 << height);
    let of_length = |length: u32| file.pieces.iter().filter(move |piece| piece.length == length);
    longest_first.flat_map(of_length).flat_map(|piece| piece.range()).collect()
}

/// Checks each file of a catalogue. Gives how many breaks each has, and the limit.
fn check(cat: &[u8]) -> Vec<(u32, u32)> {
    let listing = event_disk::list(cat).expect("a sound catalogue");
    for file in &listing.files {
        let (pages, reads) = (pages(file), file.reads());
        let seeks = pages.windows(2).filter(|two| two[0] + 1 != two[1]).count();
        assert_eq!(u64::from(file.breaks), event_disk::breaks(cat, file.id).expect("it is there"));
        assert_eq!((file.breaks as usize, reads.len()), (seeks, seeks + 1), "{file:?}");
        assert_eq!(reads.iter().flat_map(|read| read.blocks().range()).collect::<Vec<_>>(), pages, "{file:?}");
        let lengths: Vec<u32> = reads.iter().flat_map(|read| read.lengths.clone()).collect();
        assert_eq!(lengths, file.in_page_order().iter().map(|piece| piece.length).collect::<Vec<_>>());
        assert!(file.breaks <= most_breaks(file.blocks) && file.pieces.len() as u32 == most_breaks(file.blocks) + 1);
    }
    listing.files.iter().map(|file| (file.breaks, most_breaks(file.blocks))).collect()
}

/// All ways to place pieces of these lengths on a disk of so many blocks, each at a multiple of its length.
fn placed(lengths: &[u32], blocks: u32) -> Vec<Vec<(u32, u32)>> {
    let Some((&length, rest)) = lengths.split_first() else { return vec![vec![]] };
    let mut found = Vec::new();
    for others in placed(rest, blocks) {
        for first in (0..=blocks - length).step_by(length as usize) {
            if others.iter().all(|&(other, long)| other + long <= first || first + length <= other) {
                found.push(others.iter().copied().chain([(first, length)]).collect());
            }
        }
    }
    found
}

/// The catalogue of a file at these pairs, where files of one block each have the rest of the disk.
fn catalogue(version: Version, blocks: u32, mut pairs: Vec<(u32, u32)>) -> Vec<u8> {
    let field = |number: u32| number.to_be_bytes()[4 - version.field..].to_vec();
    pairs.sort_unstable();
    let is_held = |block: &u32| pairs.iter().any(|&(first, length)| (first..first + length).contains(block));
    let alone = (0..blocks).filter(|block| !is_held(block)).map(|block| vec![(block, 1)]);
    let files: Vec<Vec<(u32, u32)>> = [pairs.clone()].into_iter().chain(alone).collect();
    let mut bytes = [version.number.to_be_bytes().to_vec(), field(blocks)].concat();
    bytes.extend((files.len() as u16).to_be_bytes());
    for (id, pairs) in (1u16..).zip(files) {
        bytes.extend(id.to_be_bytes());
        bytes.extend(field(pairs.iter().map(|pair| pair.1).sum()));
        pairs.iter().for_each(|&(first, length)| bytes.extend([field(first), field(length)].concat()));
    }
    bytes.resize(version.catalogue, 0);
    bytes
}

#[test]
fn on_every_place_of_a_file_on_a_small_disk() {
    for version in Version::ALL {
        let mut seen = BTreeSet::new();
        for (blocks, n) in (1..=16u32).flat_map(|blocks| (1..=blocks).map(move |n| (blocks, n))) {
            let lengths: Vec<u32> = (0..5).map(|height| 1 << height).filter(|length| n & length != 0).collect();
            let places = placed(&lengths, blocks);
            assert!(!places.is_empty());
            seen.extend(places.into_iter().map(|pairs| check(&catalogue(version, blocks, pairs))[0]));
        }
        let all: BTreeSet<_> = (0..=3).flat_map(|limit| (0..=limit).map(move |breaks| (breaks, limit))).collect();
        assert_eq!(seen, all);
    }
}

#[test]
fn along_histories_of_adds_and_removals() {
    for version in Version::ALL {
        let mut seen = Vec::new();
        for blocks in [1, 2, 3, 5, 16, 100, 256, 261, 4095, 4096] {
            history::run(version, blocks, |cat| seen.extend(check(cat)));
        }
        let several = seen.iter().filter(|(_, limit)| *limit > 1);
        let [none, all] = [0, 1].map(|full| several.clone().filter(|(breaks, limit)| *breaks == full * limit).count());
        let some = several.count() - none - all;
        assert!([none, some, all].iter().all(|times| *times > 10), "{none} {some} {all}");
    }
}

//! Which removals would let a file in, on the twin, in every version.

use crate::case_6;
use crate::station::{bytes_of, content, Pair, Station};
use twin::{add, breaks, free, remove, which, Version, BLOCK, FITS_ALREADY, MOST_FILES};

/// A number that no call writes where it writes zeros, and that is an id of no file.
const BEFORE: u16 = 0xabcd;

/// The answer for n, and the ids that were written. Zeros follow them.
fn asked(cat: &[u8], n: u64) -> (u64, Vec<u16>) {
    let mut places = [BEFORE; MOST_FILES];
    let answer = which(cat, n, &mut places).unwrap();
    let listed = places.iter().take_while(|&&id| id != 0).count();
    assert!(places[listed..].iter().all(|&id| id == 0), "an id after a zero: {places:?}");
    assert!(answer == listed as u64 || (answer, listed) == (FITS_ALREADY, 0), "{answer} for {listed} ids");
    (answer, places[..listed].to_vec())
}

/// What a removal of each file really copies, the id, and the blocks that are free after it.
fn removals(station: &Station) -> Vec<(u64, u16, u64)> {
    let ids = (1..=300).filter(|&id| breaks(&station.cat, id).is_ok());
    let removed = ids.map(|id| {
        let (mut cat, mut disk) = (station.cat.clone(), station.disk.clone());
        let copied = remove(&mut cat, &mut disk, id).unwrap();
        (copied, id, free(&cat).unwrap())
    });
    removed.collect()
}

/// The answer and the list for each n are those of the removals that leave n free blocks.
fn is_that_of_removals(station: &Station) {
    let mut removals = removals(station);
    removals.sort_unstable();
    let blocks = (station.disk.len() / BLOCK) as u64;
    for n in (1..=blocks + 1).chain([u64::from(u32::MAX), 1 << 32, 1 << 63, u64::MAX]) {
        let helps = removals.iter().filter(|(_, _, left)| *left >= n);
        let ids: Vec<u16> = helps.map(|(_, id, _)| *id).collect();
        let fits = n <= free(&station.cat).unwrap();
        let expected = if fits { (FITS_ALREADY, vec![]) } else { (ids.len() as u64, ids) };
        assert_eq!(asked(&station.cat, n), expected, "{n} of {blocks} blocks");
    }
}

/// Removing 2 or 9 copies nothing, removing 5 copies one block.
#[test]
fn on_the_disk_of_case_6() {
    for version in Version::ALL {
        let six = case_6(version);
        assert_eq!(asked(&six.cat, 1), (FITS_ALREADY, vec![]));
        assert_eq!(asked(&six.cat, 10), (FITS_ALREADY, vec![]));
        assert_eq!(asked(&six.cat, 11), (3, vec![2, 9, 5]));
        assert_eq!(asked(&six.cat, 12), (2, vec![2, 5]));
        assert_eq!(asked(&six.cat, 13), (1, vec![5]));
        assert_eq!(asked(&six.cat, 14), (0, vec![]));
        is_that_of_removals(&six);
    }
}

/// Four files of 3 blocks, whose removals copy 1, 2, 2 and 1, and one of 2, whose removal copies nothing.
#[test]
fn equal_counts_by_lower_id() {
    for version in Version::ALL {
        let five = (1..=4).fold(Station::fresh(version, 16), |station, id| station.with(id, 3)).with(6, 2);
        assert_eq!(asked(&five.cat, 2), (FITS_ALREADY, vec![]));
        assert_eq!(asked(&five.cat, 3), (5, vec![6, 1, 4, 2, 3]));
        assert_eq!(asked(&five.cat, 5), (4, vec![1, 4, 2, 3]));
        assert_eq!(asked(&five.cat, 6), (0, vec![]));
        is_that_of_removals(&five);
    }
}

/// C, the files by id, and the free pairs.
type Layout<'a> = (usize, Vec<(u16, &'a [Pair])>, &'a [Pair]);

/// The disks of case 11, of a removal over free pieces inside the buddy, and of one that copies more than with the two
/// lowest always.
#[test]
fn on_layouts_by_hand() {
    let disks: [Layout; 3] = [
        (16, vec![(1, &[(13, 1)]), (2, &[(0, 4), (4, 2), (6, 1)]), (3, &[(8, 4), (12, 1)])], &[(7, 1), (14, 2)]),
        (32, vec![(1, &[(0, 8)]), (2, &[(8, 1), (10, 2), (24, 8)]), (3, &[(14, 2)])], &[(9, 1), (12, 2), (16, 8)]),
        (
            28,
            vec![(1, &[(0, 8), (17, 1), (22, 2), (24, 4)]), (2, &[(14, 2), (16, 1)]), (3, &[(8, 4), (12, 1), (18, 2)])],
            &[(13, 1), (20, 2)],
        ),
    ];
    for version in Version::ALL {
        for (blocks, files, free) in &disks {
            let cat = bytes_of(version, *blocks, files, free);
            is_that_of_removals(&Station { version, cat, disk: vec![0; blocks * BLOCK] });
        }
    }
}

/// 64 files of one block each fill a disk. Of two buddies the one that is removed becomes free alone: no copy is made.
#[test]
fn all_64_files_by_rising_id() {
    for version in Version::ALL {
        let full = (1..=64).rev().fold(Station::fresh(version, 64), |station, id| station.with(id, 1));
        assert_eq!(asked(&full.cat, 1), (64, (1..=64).collect()));
        assert_eq!(asked(&full.cat, 2), (0, vec![]));
        is_that_of_removals(&full);
    }
}

/// An add would be refused with 10, but n and f alone count here.
#[test]
fn at_64_files_it_fits_already() {
    for version in Version::ALL {
        let mut full = (1..=64).fold(Station::fresh(version, 70), |station, id| station.with(id, 1));
        assert_eq!(add(&mut full.cat, &mut full.disk, 65, &content(65, 6)), Err(10));
        assert_eq!(asked(&full.cat, 6), (FITS_ALREADY, vec![]));
        assert_eq!(asked(&full.cat, 7).0, 64);
        is_that_of_removals(&full);
    }
}

#[test]
fn more_blocks_than_the_disk_has() {
    for version in Version::ALL {
        let none = Station::fresh(version, 5);
        let one = Station::fresh(version, 5).with(9, 5);
        for n in [6, 4096, 1 << 20, u64::from(u32::MAX), 1 << 32, (1 << 32) + 5, 1 << 63, u64::MAX] {
            assert_eq!(asked(&none.cat, n), (0, vec![]), "{n}");
            assert_eq!(asked(&one.cat, n), (0, vec![]), "{n}");
        }
        assert_eq!(asked(&none.cat, 5), (FITS_ALREADY, vec![]));
        assert_eq!(asked(&one.cat, 5), (1, vec![9]));
    }
}

/// 1, 3, 8, 14 in this order, and the list keeps its numbers.
#[test]
fn the_order_of_the_refusals() {
    for version in Version::ALL {
        let six = case_6(version);
        for length in [0, 1, 63, 65, 128] {
            let mut places = vec![BEFORE; length];
            assert_eq!(which(&six.cat[1..], 0, &mut places), Err(1));
            assert_eq!(which(&vec![0; version.catalogue], 0, &mut places), Err(3));
            assert_eq!(which(&six.cat, 0, &mut places), Err(8));
            for n in [1, 10, 11, 14, u64::MAX] {
                assert_eq!(which(&six.cat, n, &mut places), Err(14));
            }
            assert_eq!(places, vec![BEFORE; length], "a refused call leaves the list as it is");
        }
        let mut places = [BEFORE; MOST_FILES];
        assert_eq!(which(&six.cat[1..], 11, &mut places), Err(1));
        assert_eq!(which(&vec![0; version.catalogue], 11, &mut places), Err(3));
        assert_eq!(which(&six.cat, 0, &mut places), Err(8));
        assert_eq!(places, [BEFORE; MOST_FILES], "a refused call leaves the list as it is");
    }
}

/// The file has all pieces that a file can have, and nothing is copied for the merges after its removal.
#[test]
fn a_file_of_the_most_pieces_of_the_greatest_disk() {
    for version in Version::ALL {
        let most = version.most_blocks as u32;
        let pairs: Vec<Pair> = (0..most.ilog2()).map(|height| (1 << height, 1 << height)).collect();
        let cat = bytes_of(version, version.most_blocks, &[(u16::MAX, &pairs)], &[(0, 1)]);
        assert_eq!(asked(&cat, 1), (FITS_ALREADY, vec![]));
        assert_eq!(asked(&cat, 2), (1, vec![u16::MAX]));
        assert_eq!(asked(&cat, most.into()), (1, vec![u16::MAX]));
        assert_eq!(asked(&cat, u64::from(most) + 1), (0, vec![]));
    }
}

//! Breaks: none where a piece starts right after the one before it in page order, and never more than the ones of n
//! less one.

use crate::common::{bytes, in_each_version, File, Pairs, Station};
use model::{breaks, BlockMap, Version};

/// The limit: the ones of n less one.
fn limit(n: u32) -> usize {
    n.count_ones() as usize - 1
}

/// On the disk of case 4 the file lies at (0,2) (2,1). Another of 3 blocks comes to (4,2) (3,1), which adjoin in the
/// order of their first blocks, but are read as blocks 4, 5, 3.
#[test]
fn case_4_and_pieces_that_adjoin_the_other_way_round() {
    in_each_version(|version| {
        let mut station = Station::fresh(version, 16);
        assert_eq!(station.add(5, 3), Ok(3));
        assert_eq!(breaks(&station.cat, 5), Ok(0));
        assert_eq!(station.add(6, 3), Ok(3));
        station.lists(16, &[(5, 3, &[(0, 2), (2, 1)]), (6, 3, &[(3, 1), (4, 2)])], &[(6, 2), (8, 8)]);
        assert_eq!([breaks(&station.cat, 5), breaks(&station.cat, 6)], [Ok(0), Ok(1)]);
    });
}

/// Files of one piece have none; id 7 lies at (8,8) (6,2).
#[test]
fn case_8() {
    in_each_version(|version| {
        let mut station = Station::fresh(version, 16);
        let added = [(5, 3), (9, 1), (2, 2), (7, 10)].map(|(id, n)| station.add(id, n));
        assert_eq!(added, [Ok(3), Ok(1), Ok(2), Ok(10)]);
        assert_eq!([5, 9, 2, 7].map(|id| breaks(&station.cat, id)), [Ok(0), Ok(0), Ok(0), Ok(1)]);
    });
}

/// Id 2 is read as blocks 0 to 6 before the removal, and as blocks 0 to 3, 14, 15, 13 after it; id 3 as 8 to 12.
#[test]
fn case_11() {
    in_each_version(|version| {
        let files: &[_] = &[(1, 1, &[(13, 1)][..]), (2, 7, &[(0, 4), (4, 2), (6, 1)]), (3, 5, &[(8, 4), (12, 1)])];
        let mut station = Station::laid_out(version, 16, files, &[(7, 1), (14, 2)]);
        assert_eq!([1, 2, 3].map(|id| breaks(&station.cat, id)), [Ok(0), Ok(0), Ok(0)]);
        assert_eq!(station.remove(1), Ok(3));
        assert_eq!([1, 2, 3].map(|id| breaks(&station.cat, id)), [Err(6), Ok(2), Ok(0)]);
    });
}

/// The breaks of a file at these pairs, where others of one piece each have the rest of the disk.
fn breaks_at(version: Version, pairs: Pairs, others: Pairs) -> u64 {
    let (n, all) = (pairs.iter().map(|pair| pair.1).sum(), pairs.iter().chain(others));
    let blocks = all.map(|&(first, length)| first + length).max().unwrap_or(0);
    let others = (5..).zip(others).map(|(id, pair)| (id, pair.1, std::slice::from_ref(pair)));
    let files: Vec<File> = [(4, n, pairs)].into_iter().chain(others).collect();
    let breaks = breaks(&bytes(version, blocks, &files, &[]), 4).expect("it is sound");
    assert!(breaks as usize <= limit(n));
    breaks
}

/// Each piece starts before the end of the longer one that is read before it, or after it.
#[test]
fn layouts_in_which_no_two_pieces_adjoin() {
    in_each_version(|version| {
        assert_eq!(breaks_at(version, &[(1, 1), (2, 2)], &[(0, 1)]), 1);
        assert_eq!(breaks_at(version, &[(0, 4), (5, 1)], &[(4, 1), (6, 2)]), 1);
        assert_eq!(breaks_at(version, &[(0, 1), (2, 2), (4, 4)], &[(1, 1)]), 2);
        assert_eq!(breaks_at(version, &[(3, 1), (4, 4), (8, 8)], &[(0, 2), (2, 1)]), 2);
        assert_eq!(breaks_at(version, &[(0, 8), (8, 2), (11, 1), (12, 4)], &[(10, 1)]), 3);
    });
}

/// The first two, the last two, two in the middle, two and two, or all of them.
#[test]
fn layouts_in_which_some_pieces_adjoin() {
    in_each_version(|version| {
        assert_eq!(breaks_at(version, &[(0, 4), (4, 2), (7, 1)], &[(6, 1)]), 1);
        assert_eq!(breaks_at(version, &[(2, 2), (4, 1), (8, 4)], &[(0, 2), (5, 1), (6, 2), (12, 4)]), 1);
        assert_eq!(breaks_at(version, &[(3, 1), (8, 4), (12, 2), (16, 8)], &[(0, 2), (2, 1), (4, 4), (14, 2)]), 2);
        assert_eq!(breaks_at(version, &[(0, 2), (2, 1), (8, 8), (16, 4)], &[(3, 1), (4, 4)]), 1);
        assert_eq!(breaks_at(version, &[(16, 8), (24, 4), (28, 2), (30, 1)], &[(0, 16), (31, 1)]), 0);
    });
}

/// The breaks of one file of n blocks on a fresh disk.
fn fresh_with(version: Version, blocks: u32, n: u32) -> usize {
    let mut map = BlockMap::fresh(version, blocks);
    map.add(1, n);
    map.breaks(1)
}

/// On a fresh disk the pieces of a file lie in a row if the whole disk is one free section, since each piece but the
/// first is split from the half that the one before it left; and if the file fills the disk.
#[test]
fn a_file_on_a_fresh_disk_of_one_section_has_none() {
    in_each_version(|version| {
        for blocks in (0..=8).map(|height| 1 << height) {
            assert!((1..=blocks).all(|n| fresh_with(version, blocks, n) == 0), "{blocks} blocks");
        }
        assert!((1..=300).all(|n| fresh_with(version, n, n) == 0));
        let greatest = version.most_blocks as u32;
        assert!([greatest - 1, greatest / 3, 3].iter().all(|&n| fresh_with(version, greatest, n) == 0));
    });
}

/// On other fresh disks there may be breaks: on 5 blocks a file of 3 lies at (0,2) (4,1), on 6 at (4,2) (0,1). There
/// are never more than the limit, and it is reached.
#[test]
fn a_file_on_any_fresh_disk_has_at_most_the_ones_of_n_less_one() {
    in_each_version(|version| {
        assert_eq!([5, 6, 7, 8].map(|blocks| fresh_with(version, blocks, 3)), [1, 1, 0, 0]);
        let disks = (1..=70).flat_map(|blocks| (1..=blocks).map(move |n| (blocks, n)));
        let found: Vec<_> = disks.map(|(blocks, n)| (fresh_with(version, blocks, n), limit(n))).collect();
        assert!(found.iter().all(|(breaks, limit)| breaks <= limit));
        for limit in 1..=4 {
            let seen = |breaks| found.contains(&(breaks, limit));
            assert!(seen(0) && seen(limit), "limit {limit}");
        }
    });
}

/// Files one after another on a disk with a free piece of each height. 3 blocks lie at (4088,2) (4090,1), 7 at (4080,4)
/// (4084,2) (4091,1). 255 lie at (3840,128) (3968,64) (4032,32) (4064,16), then (3584,8) (3592,4), then (4086,2), then
/// (3596,1). 1000 lie at (2048,512) (3328,256) (3712,128) (3648,64) (3616,32) (3600,8), which is their limit.
#[test]
fn files_on_a_disk_of_all_heights() {
    in_each_version(|version| {
        let mut station = Station::fresh(version, 4095);
        for (n, expected) in [(1, 0), (2, 0), (3, 0), (7, 1), (255, 3), (256, 0), (1000, 5)] {
            assert_eq!(station.add(n, u32::from(n)), Ok(u64::from(n)));
            assert_eq!(breaks(&station.cat, n), Ok(expected), "{n} blocks");
            assert!(expected as usize <= limit(n.into()) && station.reads_back(n, u32::from(n)));
        }
        assert_eq!(limit(1000), 5);
    });
}

/// A piece of each height below the greatest, by rising first block: each starts far before the end of the longer one
/// that is read before it.
#[test]
fn a_file_of_the_most_pieces_at_its_limit() {
    for (version, limit) in [(Version::SMALL, 11), (Version::LARGE, 19)] {
        let most = version.most_blocks as u32;
        let pairs: Vec<(u32, u32)> = (0..most.ilog2()).map(|height| (1 << height, 1 << height)).collect();
        let cat = bytes(version, most, &[(9, most - 1, &pairs)], &[(0, 1)]);
        assert_eq!(breaks(&cat, 9), Ok(limit));
    }
}

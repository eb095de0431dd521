//! The least number of pieces: beside all divisions into powers of two that there are, as literal numbers, and beside
//! the ones of n. And the divisions of a catalogue, which are found by their sums.

use std::collections::BTreeSet;

use crate::common::{bytes, in_each_version, File, Pairs};
use model::{all_divisions, divisions, least_pieces, Division, Version};

/// There are as many divisions as there are binary partitions, and no two are the same. Lengths that are longer than n
/// are of no account.
#[test]
fn all_divisions_are_generated() {
    let numbers = [1, 1, 2, 2, 4, 4, 6, 6, 10, 10, 14];
    assert_eq!(Vec::from_iter((0..=10).map(|n| all_divisions(n, 16).len())), numbers);
    assert_eq!(all_divisions(4, 4), [vec![4], vec![2, 2], vec![2, 1, 1], vec![1; 4]]);
    for n in 0..=40 {
        let divisions = all_divisions(n, 32);
        let sums = |lengths: &Vec<u32>| lengths.iter().sum::<u32>() == n;
        let powers = |lengths: &Vec<u32>| lengths.iter().all(|length| [1, 2, 4, 8, 16, 32].contains(length));
        let falls = |lengths: &Vec<u32>| lengths.is_sorted_by(|one, next| one >= next);
        assert!(divisions.iter().all(|lengths| sums(lengths) && powers(lengths) && falls(lengths)), "{n}");
        assert_eq!(BTreeSet::from_iter(&divisions).len(), divisions.len());
    }
}

/// No division has fewer pieces, and one has as many; it alone has them, and no length stands in it twice.
#[test]
fn the_least_of_all_divisions() {
    for (n, least) in (0..=40).zip(least_pieces(40)) {
        let divisions = all_divisions(n, 32);
        assert!(divisions.iter().all(|lengths| lengths.len() >= least as usize), "{n}");
        let fewest: Vec<_> = divisions.iter().filter(|lengths| lengths.len() == least as usize).collect();
        assert!(fewest.len() == 1 && fewest[0].is_sorted_by(|one, next| one > next), "{n}: {fewest:?}");
    }
}

#[test]
fn literal_numbers() {
    let least = least_pieces(1 << 20);
    assert_eq!(least.len(), 1_048_577);
    assert_eq!(least[..=16], [0, 1, 1, 2, 1, 2, 2, 3, 1, 2, 2, 3, 2, 3, 3, 4, 1]);
    for (n, number) in [(255, 8), (256, 1), (257, 2), (1000, 6), (2730, 6), (4094, 11), (4095, 12), (4096, 1)] {
        assert_eq!(least[n], number, "{n}");
    }
    assert_eq!([4097, 65_535, 699_050, 1_048_575, 1_048_576].map(|n: usize| least[n]), [2, 16, 10, 20, 1]);
    assert_eq!((least_pieces(0), least_pieces(1)), (vec![0], vec![0, 1]));
}

/// A shorter table is the start of a longer one.
#[test]
fn for_each_n_of_a_disk_it_is_the_ones_of_n() {
    for version in Version::ALL {
        let least = least_pieces(version.most_blocks);
        assert_eq!(least.len(), version.most_blocks + 1);
        assert!((1..=version.most_blocks).all(|n| least[n] == n.count_ones()));
    }
}

/// The divisions of a catalogue by hand.
fn read(version: Version, blocks: u32, files: &[File], free: Pairs) -> Option<Vec<(u32, Vec<u32>)>> {
    let pairs = |Division { blocks, lengths }| (blocks, lengths);
    Some(divisions(&bytes(version, blocks, files, free))?.into_iter().map(pairs).collect())
}

/// Case 6, and what is no sound catalogue: files and free blocks in more pieces, and in fewer, than they have ones.
#[test]
fn pieces_are_counted_as_they_stand() {
    in_each_version(|version| {
        let files: &[File] = &[(2, 2, &[(4, 2)]), (5, 3, &[(0, 2), (2, 1)]), (9, 1, &[(3, 1)])];
        let held = [(2, vec![2]), (3, vec![2, 1]), (1, vec![1])];
        let with_free = |free: (u32, Vec<u32>)| Some([&held[..], &[free]].concat());
        assert_eq!(read(version, 16, files, &[(6, 2), (8, 8)]), with_free((10, vec![2, 8])));
        assert_eq!(read(version, 16, files, &[(6, 2), (8, 4), (12, 4)]), with_free((10, vec![2, 4, 4])));
        assert_eq!(read(version, 16, files, &[(6, 10)]), with_free((10, vec![10])));
        assert_eq!(read(version, 6, files, &[]), with_free((0, vec![])));
        let ones: &[File] = &[(5, 3, &[(0, 1), (1, 1), (2, 1)])];
        assert_eq!(read(version, 4, ones, &[(3, 1)]), Some(vec![(3, vec![1, 1, 1]), (1, vec![1])]));
        assert_eq!(read(version, 3, &[(5, 3, &[(0, 3)])], &[]), Some(vec![(3, vec![3]), (0, vec![])]));
    });
}

#[test]
fn pieces_that_do_not_sum_are_no_division() {
    in_each_version(|version| {
        assert_eq!(read(version, 16, &[], &[(0, 8), (8, 16)]), None, "they pass the free blocks");
        assert_eq!(read(version, 16, &[(5, 3, &[(0, 2), (2, 2)])], &[(8, 8)]), None, "they pass those of a file");
        assert_eq!(read(version, 16, &[], &[(0, 8)]), None, "there are too few");
        assert_eq!(read(version, 2, &[(5, 3, &[(0, 2), (2, 1)])], &[]), None, "the disk has not so many blocks");
        let most = version.most_blocks as u32;
        assert_eq!(read(version, most, &[], &[(0, most)]), Some(vec![(most, vec![most])]));
        assert_eq!(read(version, most + 1, &[], &[(0, most), (most, 1)]), None, "no disk has so many");
        assert_eq!(divisions(&bytes(version, 16, &[], &[(0, 16)])[1..]), None);
    });
}

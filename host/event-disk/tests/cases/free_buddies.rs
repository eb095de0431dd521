//! Two free buddies are merged first, and nothing is copied for them, by the exported calls.

use crate::station::{bytes, Files, Pairs, Station};
use event_disk::{carries, Version, BLOCK};

/// Removes id 1 from a disk on which each block has the byte of its number. Gives the blocks copied, and for each block
/// the number of the one whose bytes it has; the catalogue has to be the second one.
fn removed(blocks: u8, before: (Files, Pairs), after: (Files, Pairs)) -> (u64, Vec<u8>) {
    let outcomes = Version::ALL.map(|version| {
        let mut cat = bytes(version, blocks.into(), before.0, before.1);
        let mut disk: Vec<u8> = (0..blocks).flat_map(|block| [block; BLOCK]).collect();
        let copied = event_disk::remove(&mut cat, &mut disk, 1).expect("id 1 is there");
        assert_eq!(cat, bytes(version, blocks.into(), after.0, after.1));
        assert!(disk.chunks(BLOCK).all(|block| block == [block[0]; BLOCK]));
        (copied, disk.chunks(BLOCK).map(|block| block[0]).collect())
    });
    let [small, large] = outcomes;
    assert_eq!(small, large, "both versions do the same");
    small
}

/// For (0,2) and (4,2) the file at (2,2) would be copied, while (4,2) and (6,2) are buddies.
#[test]
fn buddies_above_the_lowest_section() {
    for mut s in Version::ALL.map(|version| Station::fresh(version, 8)) {
        assert_eq!([s.add(1, 1), s.add(2, 2), s.add(3, 3)], [Ok(1), Ok(2), Ok(3)]);
        s.is(8, &[(1, 1, &[(0, 1)]), (2, 2, &[(2, 2)]), (3, 3, &[(1, 1), (4, 2)])], &[(6, 2)], &[]);
        let disk = s.disk.clone();
        assert_eq!(s.remove(1), Ok(0));
        s.is(8, &[(2, 2, &[(2, 2)]), (3, 3, &[(1, 1), (4, 2)])], &[(0, 1), (6, 2)], &[]);
        assert_eq!(s.remove(3), Ok(0));
        s.is(8, &[(2, 2, &[(2, 2)])], &[(0, 2), (4, 4)], &[(2, 2, 0), (3, 2, 1)]);
        assert!(s.disk == disk);
    }
}

/// 7 blocks would be copied here with the two lowest always: the contract's limit, 15, is what holds.
#[test]
fn a_removal_that_copies_more_than_with_the_two_lowest() {
    const FILES: Files = &[
        (1, 15, &[(0, 8), (17, 1), (22, 2), (24, 4)]),
        (2, 3, &[(14, 2), (16, 1)]),
        (3, 7, &[(8, 4), (12, 1), (18, 2)]),
    ];
    const AFTER: Files = &[(2, 3, &[(22, 2), (24, 1)]), (3, 7, &[(16, 4), (25, 1), (26, 2)])];
    let (copied, from) = removed(28, (FILES, &[(13, 1), (20, 2)]), (AFTER, &[(0, 16), (20, 2)]));
    assert_eq!((copied, carries(3, 15)), (11, 15));
    assert_eq!(from[..16], Vec::from_iter(0..16));
    assert_eq!(from[16..], [8, 9, 10, 11, 20, 21, 14, 15, 16, 12, 18, 19]);
}

#[test]
fn buddies_that_are_the_two_lowest() {
    const FILES: Files = &[(1, 3, &[(0, 1), (2, 2)]), (2, 2, &[(4, 2)])];
    let outcome = removed(8, (FILES, &[(1, 1), (6, 2)]), (&FILES[1..], &[(0, 4), (6, 2)]));
    assert_eq!(outcome, (0, Vec::from_iter(0..8)));
}

/// (6,2) and (8,2) adjoin, but they are not halves of one section: the two lowest are taken.
#[test]
fn neighbours_that_are_no_buddies() {
    const FILES: Files = &[(1, 3, &[(1, 1), (6, 2)]), (2, 2, &[(2, 2)]), (3, 2, &[(4, 2)]), (4, 2, &[(10, 2)])];
    const AFTER: Files = &[(2, 2, &[(6, 2)]), (3, 2, &[(4, 2)]), (4, 2, &[(10, 2)])];
    let outcome = removed(12, (FILES, &[(0, 1), (8, 2)]), (AFTER, &[(0, 4), (8, 2)]));
    assert_eq!(outcome, (2, vec![0, 1, 2, 3, 4, 5, 2, 3, 8, 9, 10, 11]));
}

/// (6,1) starts where the buddy of (4,2) does, but it is of another height.
#[test]
fn a_piece_of_another_height_is_no_buddy() {
    const FILES: Files = &[(1, 2, &[(0, 2)]), (2, 2, &[(2, 2)]), (3, 1, &[(7, 1)])];
    const AFTER: Files = &[(2, 2, &[(4, 2)]), (3, 1, &[(7, 1)])];
    let outcome = removed(8, (FILES, &[(4, 2), (6, 1)]), (AFTER, &[(0, 4), (6, 1)]));
    assert_eq!(outcome, (2, vec![0, 1, 2, 3, 2, 3, 6, 7]));
}

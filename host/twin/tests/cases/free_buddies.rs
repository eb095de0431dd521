//! Two free buddies are merged first, and nothing is copied for them, on the twin, in every version.

use crate::station::{bytes_of, content, Pair, Station};
use twin::{Version, BLOCK};

/// A disk on which each block has the byte of its number.
fn laid_out(version: Version, blocks: u8, files: &[(u16, &[Pair])], free: &[Pair]) -> Station {
    let cat = bytes_of(version, usize::from(blocks), files, free);
    Station { version, cat, disk: (0..blocks).flat_map(|block| [block; BLOCK]).collect() }
}

/// Each block of the disk has the byte of that block.
fn blocks_are(station: &Station, from: impl IntoIterator<Item = u8>) {
    let from: Vec<u8> = from.into_iter().flat_map(|block| [block; BLOCK]).collect();
    assert!(station.disk == from);
}

/// For (0,2) and (4,2) the file at (2,2) would be copied, while (4,2) and (6,2) are buddies.
#[test]
fn buddies_above_the_lowest_section() {
    for version in Version::ALL {
        let three = Station::fresh(version, 8).with(1, 1).with(2, 2).with(3, 3);
        let three = three.has(&[(1, &[(0, 1)]), (2, &[(2, 2)]), (3, &[(1, 1), (4, 2)])], &[(6, 2)]);
        let disk = three.disk.clone();
        let two = three.without(1, 0).has(&[(2, &[(2, 2)]), (3, &[(1, 1), (4, 2)])], &[(0, 1), (6, 2)]);
        let one = two.without(3, 0).has(&[(2, &[(2, 2)])], &[(0, 2), (4, 4)]);
        assert!(one.disk == disk);
        assert_eq!(one.pages(2, 2), content(2, 2));
    }
}

/// 7 blocks would be copied here with the two lowest always; the limit is 15.
#[test]
fn a_removal_that_copies_more_than_with_the_two_lowest() {
    for version in Version::ALL {
        let removed: &[Pair] = &[(0, 8), (17, 1), (22, 2), (24, 4)];
        let files = [(1, removed), (2, &[(14, 2), (16, 1)]), (3, &[(8, 4), (12, 1), (18, 2)])];
        let after = laid_out(version, 28, &files, &[(13, 1), (20, 2)]).without(1, 11);
        let files: [(u16, &[Pair]); 2] = [(2, &[(22, 2), (24, 1)]), (3, &[(16, 4), (25, 1), (26, 2)])];
        let after = after.has(&files, &[(0, 16), (20, 2)]);
        blocks_are(&after, (0..16).chain([8, 9, 10, 11, 20, 21, 14, 15, 16, 12, 18, 19]));
        let pages = |blocks: &[u8]| blocks.iter().flat_map(|&block| [block; BLOCK]).collect::<Vec<u8>>();
        assert_eq!(after.pages(2, 3), pages(&[14, 15, 16]));
        assert_eq!(after.pages(3, 7), pages(&[8, 9, 10, 11, 18, 19, 12]));
    }
}

#[test]
fn buddies_that_are_the_two_lowest() {
    for version in Version::ALL {
        let files: [(u16, &[Pair]); 2] = [(1, &[(0, 1), (2, 2)]), (2, &[(4, 2)])];
        let after = laid_out(version, 8, &files, &[(1, 1), (6, 2)]).without(1, 0);
        blocks_are(&after.has(&[(2, &[(4, 2)])], &[(0, 4), (6, 2)]), 0..8);
    }
}

/// (6,2) and (8,2) adjoin, but they are not halves of one section: the two lowest are taken.
#[test]
fn neighbours_that_are_no_buddies() {
    for version in Version::ALL {
        let files: [(u16, &[Pair]); 4] = [(1, &[(1, 1), (6, 2)]), (2, &[(2, 2)]), (3, &[(4, 2)]), (4, &[(10, 2)])];
        let after = laid_out(version, 12, &files, &[(0, 1), (8, 2)]).without(1, 2);
        let after = after.has(&[(2, &[(6, 2)]), (3, &[(4, 2)]), (4, &[(10, 2)])], &[(0, 4), (8, 2)]);
        blocks_are(&after, [0, 1, 2, 3, 4, 5, 2, 3, 8, 9, 10, 11]);
    }
}

/// (6,1) starts where the buddy of (4,2) does, but it is of another height.
#[test]
fn a_piece_of_another_height_is_no_buddy() {
    for version in Version::ALL {
        let files: [(u16, &[Pair]); 3] = [(1, &[(0, 2)]), (2, &[(2, 2)]), (3, &[(7, 1)])];
        let after = laid_out(version, 8, &files, &[(4, 2), (6, 1)]).without(1, 2);
        blocks_are(&after.has(&[(2, &[(4, 2)]), (3, &[(7, 1)])], &[(0, 4), (6, 1)]), [0, 1, 2, 3, 2, 3, 6, 7]);
    }
}

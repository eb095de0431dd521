//! The hand cases of the scope document, on the twin, in every version.

mod breaks;
mod free_buddies;
mod replace;
mod station;
mod which;

use station::{bytes_of, content, Pair, Station};
use twin::{add, breaks, check, format, free, read, Version, BLOCK};

#[test]
fn cases_1_to_3_are_fresh_disks() {
    for version in Version::ALL {
        Station::fresh(version, 1).has(&[], &[(0, 1)]);
        Station::fresh(version, 5).has(&[], &[(0, 4), (4, 1)]);
        Station::fresh(version, 261).has(&[], &[(0, 256), (256, 4), (260, 1)]);
    }
}

fn case_6(version: Version) -> Station {
    let four = Station::fresh(version, 16).with(5, 3).has(&[(5, &[(0, 2), (2, 1)])], &[(3, 1), (4, 4), (8, 8)]);
    let five = four.with(9, 1).has(&[(5, &[(0, 2), (2, 1)]), (9, &[(3, 1)])], &[(4, 4), (8, 8)]);
    five.with(2, 2).has(&[(2, &[(4, 2)]), (5, &[(0, 2), (2, 1)]), (9, &[(3, 1)])], &[(6, 2), (8, 8)])
}

#[test]
fn cases_4_to_7_add_three_files_and_remove_one() {
    for version in Version::ALL {
        let seven = case_6(version).without(5, 1);
        let seven = seven.has(&[(2, &[(4, 2)]), (9, &[(7, 1)])], &[(0, 4), (6, 1), (8, 8)]);
        assert_eq!(seven.disk[6 * BLOCK..7 * BLOCK], [0xbb; BLOCK], "a free block of the target keeps its bytes");
        assert_eq!(seven.pages(9, 1), content(9, 1));
        assert_eq!(seven.pages(2, 2), content(2, 2));
        assert_eq!(free(&seven.cat), Ok(13));
        assert_eq!(check(&seven.cat, &seven.disk), Ok(16));
    }
}

#[test]
fn case_8_fills_the_disk() {
    for version in Version::ALL {
        let eight = case_6(version).with(7, 10);
        assert_eq!(free(&eight.cat), Ok(0));
        assert_eq!(breaks(&eight.cat, 7), Ok(1));
        let mut six = case_6(version);
        assert_eq!(add(&mut six.cat, &mut six.disk, 7, &content(7, 11)), Err(11));
    }
}

#[test]
fn case_9_merges_buddies_without_a_copy() {
    for version in Version::ALL {
        Station::fresh(version, 2).with(1, 1).without(1, 0).has(&[], &[(0, 2)]);
    }
}

#[test]
fn case_10_has_no_buddy_past_the_end() {
    for version in Version::ALL {
        let ten = Station::fresh(version, 5).with(1, 1).with(2, 1).without(1, 1).has(&[(2, &[(4, 1)])], &[(0, 4)]);
        assert_eq!(ten.pages(2, 1), content(2, 1));
    }
}

#[test]
fn case_11_is_the_deletion_of_the_paper() {
    for version in Version::ALL {
        let files: [(u16, &[Pair]); 3] = [(1, &[(13, 1)]), (2, &[(0, 4), (4, 2), (6, 1)]), (3, &[(8, 4), (12, 1)])];
        let cat = bytes_of(version, 16, &files, &[(7, 1), (14, 2)]);
        let disk = (0..16).flat_map(|block| [block; BLOCK]).collect();
        let eleven = Station { version, cat, disk }.without(1, 3);
        let eleven = eleven.has(&[(2, &[(0, 4), (13, 1), (14, 2)]), (3, &[(8, 4), (12, 1)])], &[(4, 4)]);
        let pages: Vec<u8> = (0..7).flat_map(|page| [page; BLOCK]).collect();
        assert_eq!(eleven.pages(2, 7), pages);
    }
}

/// The buddy (8,8) moves to (16,8): of its blocks those are copied that lie before, between and behind the free pieces
/// (9,1) and (12,2).
#[test]
fn free_pieces_in_the_buddy_move_without_their_blocks() {
    for version in Version::ALL {
        let files: [(u16, &[Pair]); 3] = [(1, &[(0, 8)]), (2, &[(8, 1), (10, 2), (24, 8)]), (3, &[(14, 2)])];
        let cat = bytes_of(version, 32, &files, &[(9, 1), (12, 2), (16, 8)]);
        let disk = (0..32).flat_map(|block| [block; BLOCK]).collect();
        let moved = Station { version, cat, disk }.without(1, 5);
        let moved = moved.has(&[(2, &[(16, 1), (18, 2), (24, 8)]), (3, &[(22, 2)])], &[(0, 16), (17, 1), (20, 2)]);
        let target: Vec<u8> = [8, 17, 10, 11, 20, 21, 14, 15].into_iter().flat_map(|block| [block; BLOCK]).collect();
        assert_eq!(moved.disk[16 * BLOCK..24 * BLOCK], target);
    }
}

#[test]
fn lengths_counts_and_pages_at_their_limits() {
    for version in Version::ALL {
        let mut full = (1..=63).fold(Station::fresh(version, 100), |station, id| station.with(id, 1));
        assert_eq!(add(&mut full.cat, &mut full.disk, 64, &[0; 511]), Err(8));
        assert_eq!(add(&mut full.cat, &mut full.disk, 64, &[0; 512]), Ok(1));
        assert_eq!(add(&mut full.cat, &mut full.disk, 65, &[0; 512]), Err(10));
        let three = Station::fresh(version, 16).with(5, 3);
        assert_eq!(read(&three.cat, &three.disk, 5, 2, &mut [0; BLOCK]), Ok(1));
        assert_eq!(read(&three.cat, &three.disk, 5, 2, &mut [0; 2 * BLOCK]), Err(9));
        assert_eq!(read(&three.cat, &three.disk, 5, u64::MAX, &mut [0; BLOCK]), Err(9));
    }
}

/// A disk of zero bytes takes no memory until it is written, and format only looks at its length.
#[test]
fn the_greatest_disk_of_a_version() {
    for version in Version::ALL {
        let most = version.most_blocks;
        let mut cat = vec![7; version.catalogue];
        assert_eq!(format(&mut cat, &vec![0; (most + 1) * BLOCK]), Err(2));
        assert_eq!(cat, vec![7; version.catalogue]);
        let disk = vec![0; most * BLOCK];
        assert_eq!(format(&mut cat, &disk), Ok(most as u64));
        assert_eq!(cat, bytes_of(version, most, &[], &[(0, most as u32)]));
        assert_eq!(check(&cat, &disk), Ok(most as u64));
        let next = bytes_of(version, most + 1, &[], &[(0, most as u32), (most as u32, 1)]);
        assert_eq!(check(&next, &disk), Err(3));
    }
}

/// A file of every length below the greatest: as many pieces as a file can have, of which no merge copies a block. In
/// page order each starts before the one that comes before it.
#[test]
fn a_file_of_the_most_pieces() {
    for (version, limit) in [(Version::SMALL, 11), (Version::LARGE, 19)] {
        let most = version.most_blocks as u32;
        let pairs: Vec<Pair> = (0..most.ilog2()).map(|height| (1 << height, 1 << height)).collect();
        let cat = bytes_of(version, version.most_blocks, &[(9, &pairs)], &[(0, 1)]);
        assert_eq!((pairs.len(), breaks(&cat, 9)), (limit as usize + 1, Ok(limit)));
        let full = Station { version, cat, disk: vec![0; version.most_blocks * BLOCK] };
        full.without(9, 0).has(&[], &[(0, most)]);
    }
}

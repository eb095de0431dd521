//! Cases 1 to 11 of the scope document by the exported calls, in each version of the catalogue: the rows of the table
//! that the crate `case_table` proves of the definitions, as catalogue bytes, answers and blocks.

mod breaks;
mod free_buddies;
mod replace;
mod station;
mod which;

use event_disk::{Refusal, Version, BLOCK};
use station::{bytes, page, Files, Station};

#[test]
fn cases_1_to_3() {
    for version in Version::ALL {
        Station::fresh(version, 1).is(1, &[], &[(0, 1)], &[]);
        Station::fresh(version, 5).is(5, &[], &[(0, 4), (4, 1)], &[]);
        Station::fresh(version, 261).is(261, &[], &[(0, 256), (256, 4), (260, 1)], &[]);
    }
}

/// The disk of case 6.
fn case_6(version: Version) -> Station {
    let mut s = Station::fresh(version, 16);
    assert_eq!(s.add(5, 3), Ok(3));
    s.is(16, &[(5, 3, &[(0, 2), (2, 1)])], &[(3, 1), (4, 4), (8, 8)], &[(0, 5, 0), (1, 5, 1), (2, 5, 2)]);
    assert_eq!(s.add(9, 1), Ok(1));
    s.is(16, &[(5, 3, &[(0, 2), (2, 1)]), (9, 1, &[(3, 1)])], &[(4, 4), (8, 8)], &[(3, 9, 0)]);
    assert_eq!(s.add(2, 2), Ok(2));
    const FILES: Files = &[(2, 2, &[(4, 2)]), (5, 3, &[(0, 2), (2, 1)]), (9, 1, &[(3, 1)])];
    s.is(16, FILES, &[(6, 2), (8, 8)], &[(4, 2, 0), (5, 2, 1)]);
    s
}

#[test]
fn cases_4_to_7() {
    for mut s in Version::ALL.map(case_6) {
        assert_eq!(s.remove(5), Ok(1));
        const FILES: Files = &[(2, 2, &[(4, 2)]), (9, 1, &[(7, 1)])];
        s.is(16, FILES, &[(0, 4), (6, 1), (8, 8)], &[(2, 5, 2), (3, 9, 0), (7, 9, 0)]);
        assert_eq!(s.disk[6 * BLOCK..][..BLOCK], [255; BLOCK], "a free block of the target keeps its bytes");
    }
}

/// Case 7 in the large catalogue by its bytes written out, and not as the function above makes them.
#[test]
fn case_7_of_version_2() {
    let mut s = case_6(Version::LARGE);
    assert_eq!(s.remove(5), Ok(1));
    let (header, files) = ([0, 2, 0, 0, 0, 16, 0, 2], [[0, 2, 0, 0, 0, 2], [0, 9, 0, 0, 0, 1]]);
    let held = [[0, 0, 0, 4, 0, 0, 0, 2], [0, 0, 0, 7, 0, 0, 0, 1]];
    let free = [[0, 0, 0, 0, 0, 0, 0, 4], [0, 0, 0, 6, 0, 0, 0, 1], [0, 0, 0, 8, 0, 0, 0, 8]];
    let used = [&header[..], &files[0], &held[0], &files[1], &held[1], &free.concat()].concat();
    assert_eq!((used.len(), s.cat.len()), (60, 16_384));
    assert_eq!(s.cat[..60], used);
    assert_eq!(s.cat[60..], [0; 16_384 - 60]);
}

#[test]
fn case_8() {
    const FILES: Files = &[(2, 2, &[(4, 2)]), (5, 3, &[(0, 2), (2, 1)]), (7, 10, &[(6, 2), (8, 8)]), (9, 1, &[(3, 1)])];
    for mut s in Version::ALL.map(case_6) {
        let before = (s.cat.clone(), s.disk.clone());
        assert_eq!(s.add(7, 11), Err(Refusal::NoSpace));
        assert_eq!((&s.cat, &s.disk), (&before.0, &before.1));
        assert_eq!(s.add(7, 10), Ok(10));
        s.is(16, FILES, &[], &[(8, 7, 0), (15, 7, 7), (6, 7, 8), (7, 7, 9)]);
    }
}

#[test]
fn case_9() {
    for mut s in Version::ALL.map(|version| Station::fresh(version, 2)) {
        assert_eq!((s.add(1, 1), s.remove(1)), (Ok(1), Ok(0)));
        s.is(2, &[], &[(0, 2)], &[]);
    }
}

#[test]
fn case_10() {
    for mut s in Version::ALL.map(|version| Station::fresh(version, 5)) {
        assert_eq!((s.add(1, 1), s.add(2, 1)), (Ok(1), Ok(1)));
        s.is(5, &[(1, 1, &[(4, 1)]), (2, 1, &[(0, 1)])], &[(1, 1), (2, 2)], &[(4, 1, 0), (0, 2, 0)]);
        assert_eq!(s.remove(1), Ok(1));
        s.is(5, &[(2, 1, &[(4, 1)])], &[(0, 4)], &[(4, 2, 0), (0, 2, 0)]);
    }
}

/// The disk of case 11 before the removal.
fn before_case_11(version: Version) -> Station {
    const FILES: Files = &[(1, 1, &[(13, 1)]), (2, 7, &[(0, 4), (4, 2), (6, 1)]), (3, 5, &[(8, 4), (12, 1)])];
    let cat = bytes(version, 16, FILES, &[(7, 1), (14, 2)]);
    let mut s = Station { version, cat, disk: vec![255; 16 * BLOCK] };
    let lie = [(13, 1, 0), (0, 2, 0), (1, 2, 1), (2, 2, 2), (3, 2, 3), (4, 2, 4), (5, 2, 5), (6, 2, 6)];
    let more = [(8, 3, 0), (9, 3, 1), (10, 3, 2), (11, 3, 3), (12, 3, 4)];
    for (block, id, number) in lie.into_iter().chain(more) {
        s.disk[block * BLOCK..][..BLOCK].copy_from_slice(&page(id, number));
    }
    s.is(16, FILES, &[(7, 1), (14, 2)], &[]);
    s
}

#[test]
fn case_11() {
    for mut s in Version::ALL.map(before_case_11) {
        assert_eq!(s.remove(1), Ok(3));
        const AFTER: Files = &[(2, 7, &[(0, 4), (13, 1), (14, 2)]), (3, 5, &[(8, 4), (12, 1)])];
        s.is(16, AFTER, &[(4, 4)], &[(14, 2, 4), (15, 2, 5), (13, 2, 6)]);
    }
}

/// A buddy of 8 blocks in which two pieces are free: only the blocks before, between and behind them are copied.
#[test]
fn free_pieces_in_the_buddy() {
    const FILES: Files = &[(1, 8, &[(0, 8)]), (2, 3, &[(8, 1), (10, 2)]), (3, 2, &[(14, 2)]), (4, 8, &[(24, 8)])];
    const AFTER: Files = &[(2, 3, &[(16, 1), (18, 2)]), (3, 2, &[(22, 2)]), (4, 8, &[(24, 8)])];
    for version in Version::ALL {
        let mut cat = bytes(version, 32, FILES, &[(9, 1), (12, 2), (16, 8)]);
        let mut disk: Vec<u8> = (0..32).flat_map(|block| [block; BLOCK]).collect();
        assert_eq!(event_disk::remove(&mut cat, &mut disk, 1), Ok(5));
        assert_eq!(cat, bytes(version, 32, AFTER, &[(0, 16), (17, 1), (20, 2)]));
        let from: Vec<u8> = disk.chunks(BLOCK).map(|block| block[0]).collect();
        assert_eq!(from[..16], Vec::from_iter(0..16));
        assert_eq!(from[16..24], [8, 17, 10, 11, 20, 21, 14, 15]);
        assert_eq!(from[24..], Vec::from_iter(24..32));
    }
}

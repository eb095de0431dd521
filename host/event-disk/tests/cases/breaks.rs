//! Breaks by the exported call, and the reads that the listing makes of the pieces.

use crate::station::{bytes, Files, Station};
use crate::{before_case_11, case_6};
use event_disk::{most_breaks, Read, Refusal, Version};

/// The breaks of a file by the call, which are those of the listing, and where each read starts with the lengths of its
/// pieces.
fn read_so(cat: &[u8], id: u16) -> (u64, Vec<(u32, Vec<u32>)>) {
    let listing = event_disk::list(cat).expect("a sound catalogue");
    let file = listing.files.iter().find(|file| file.id == id).expect("the file is there");
    let (breaks, reads) = (event_disk::breaks(cat, id).expect("the file is there"), file.reads());
    assert_eq!((u64::from(file.breaks), reads.len() as u64), (breaks, breaks + 1), "file {id}");
    assert!(file.breaks <= most_breaks(file.blocks));
    (breaks, reads.into_iter().map(|Read { first, lengths }| (first, lengths)).collect())
}

/// (0,2) (2,1) are one read, and (4,2) (3,1) are two, though they adjoin by rising first block.
#[test]
fn case_4_and_pieces_that_adjoin_the_other_way_round() {
    for mut s in Version::ALL.map(|version| Station::fresh(version, 16)) {
        assert_eq!(s.add(5, 3), Ok(3));
        assert_eq!(read_so(&s.cat, 5), (0, vec![(0, vec![2, 1])]));
        assert_eq!(s.add(6, 3), Ok(3));
        s.is(16, &[(5, 3, &[(0, 2), (2, 1)]), (6, 3, &[(3, 1), (4, 2)])], &[(6, 2), (8, 8)], &[]);
        assert_eq!(read_so(&s.cat, 5), (0, vec![(0, vec![2, 1])]));
        assert_eq!(read_so(&s.cat, 6), (1, vec![(4, vec![2]), (3, vec![1])]));
    }
}

/// Pieces by themselves, and id 7 at (8,8) (6,2).
#[test]
fn case_8() {
    for mut s in Version::ALL.map(case_6) {
        assert_eq!(s.add(7, 10), Ok(10));
        assert_eq!(read_so(&s.cat, 2), (0, vec![(4, vec![2])]));
        assert_eq!(read_so(&s.cat, 9), (0, vec![(3, vec![1])]));
        assert_eq!(read_so(&s.cat, 7), (1, vec![(8, vec![8]), (6, vec![2])]));
    }
}

/// The removal takes the three pieces of id 2 apart, and leaves id 3 as it is.
#[test]
fn case_11() {
    for mut s in Version::ALL.map(before_case_11) {
        assert_eq!(read_so(&s.cat, 2), (0, vec![(0, vec![4, 2, 1])]));
        assert_eq!(read_so(&s.cat, 3), (0, vec![(8, vec![4, 1])]));
        assert_eq!(s.remove(1), Ok(3));
        assert_eq!(read_so(&s.cat, 2), (2, vec![(0, vec![4]), (14, vec![2]), (13, vec![1])]));
        assert_eq!(read_so(&s.cat, 3), (0, vec![(8, vec![4, 1])]));
    }
}

/// Disks of 16 blocks with a file of 15 and another of one: where they lie, and the breaks of the first.
#[test]
fn one_file_in_all_but_a_block() {
    const DISKS: [(Files, u64); 5] = [
        (&[(4, 15, &[(0, 8), (8, 4), (12, 2), (14, 1)]), (5, 1, &[(15, 1)])], 0),
        (&[(4, 15, &[(0, 8), (8, 4), (12, 1), (14, 2)]), (5, 1, &[(13, 1)])], 2),
        (&[(4, 15, &[(0, 8), (8, 2), (11, 1), (12, 4)]), (5, 1, &[(10, 1)])], 3),
        (&[(4, 15, &[(0, 4), (4, 2), (6, 1), (8, 8)]), (5, 1, &[(7, 1)])], 1),
        (&[(4, 15, &[(1, 1), (2, 2), (4, 4), (8, 8)]), (5, 1, &[(0, 1)])], 3),
    ];
    for version in Version::ALL {
        for (files, expected) in DISKS {
            assert_eq!(read_so(&bytes(version, 16, files, &[]), 4).0, expected, "{files:?}");
        }
    }
}

#[test]
fn the_limit_is_the_ones_of_n_less_one() {
    let limits = [(1, 0), (2, 0), (3, 1), (4, 0), (7, 2), (10, 1), (259, 2), (4095, 11), (4096, 0), (1_048_575, 19)];
    for (blocks, limit) in limits {
        assert_eq!(most_breaks(blocks), limit, "{blocks} blocks");
    }
}

/// 1, 3, 5 and 6, and each before the next.
#[test]
fn the_order_of_the_refusals() {
    for s in Version::ALL.map(case_6) {
        let unsound = vec![0; s.cat.len()];
        for (cat, refusal) in [(&s.cat[1..], Refusal::CatalogueLength), (&unsound, Refusal::NotSound)] {
            assert!([0, 5, 6].iter().all(|&id| event_disk::breaks(cat, id) == Err(refusal)));
        }
        assert_eq!(event_disk::breaks(&s.cat, 0), Err(Refusal::IdZero));
        assert_eq!(event_disk::breaks(&s.cat, 6), Err(Refusal::IdMissing));
    }
}

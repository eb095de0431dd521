//! Two free buddies are merged first, and nothing is copied for them: the disks on which that choice shows.

use crate::common::{in_each_version, page, Station};
use model::{buddies_first, carries, removal_copies, removal_merges, two_lowest, Choice, Merge, Version, BLOCK};

/// The merges of a removal with a choice, and the blocks that are copied for them.
fn merged(choice: Choice, station: &Station, id: u16) -> (Vec<Merge>, usize) {
    let merges = removal_merges(choice, &station.cat, &station.disk, id).expect("the file is there");
    let copied = merges.iter().filter_map(|merge| merge.moved.as_ref()).map(|moved| moved.copies.len()).sum();
    (merges, copied)
}

/// The sections that were taken at each merge: their length, and their first blocks.
fn taken(merges: &[Merge]) -> Vec<(usize, [usize; 2])> {
    merges.iter().map(|merge| (merge.length, merge.taken)).collect()
}

/// A file of one block, one of two and one of three: for (0,2) and (4,2) the file at (2,2) would be copied, while (4,2)
/// and (6,2) are buddies.
#[test]
fn buddies_above_the_lowest_section_are_merged_without_a_copy() {
    in_each_version(|version| {
        let mut station = Station::fresh(version, 8);
        assert_eq!([station.add(1, 1), station.add(2, 2), station.add(3, 3)], [Ok(1), Ok(2), Ok(3)]);
        let files: &[_] = &[(1, 1, &[(0, 1)][..]), (2, 2, &[(2, 2)]), (3, 3, &[(1, 1), (4, 2)])];
        station.lists(8, files, &[(6, 2)]);
        let disk = station.disk.clone();
        assert_eq!(station.remove(1), Ok(0));
        station.lists(8, &files[1..], &[(0, 1), (6, 2)]);
        assert_eq!(merged(two_lowest, &station, 3).1, 2);
        let (merges, copied) = merged(buddies_first, &station, 3);
        assert_eq!((taken(&merges), copied), (vec![(1, [0, 1]), (2, [4, 6])], 0));
        assert_eq!(merges[1].free, [0, 4, 6]);
        assert_eq!(station.remove(3), Ok(0));
        station.lists(8, &[(2, 2, &[(2, 2)])], &[(0, 2), (4, 4)]);
        assert!(station.disk == disk && station.reads_back(2, 2));
    });
}

/// The disk on which a removal copies more blocks than with the two lowest always.
fn more_is_copied(version: Version) -> Station {
    let files: &[_] = &[
        (1, 15, &[(0, 8), (17, 1), (22, 2), (24, 4)][..]),
        (2, 3, &[(14, 2), (16, 1)]),
        (3, 7, &[(8, 4), (12, 1), (18, 2)]),
    ];
    Station::laid_out(version, 28, files, &[(13, 1), (20, 2)])
}

/// What is copied at higher heights may be more: only the limit is promised.
#[test]
fn a_removal_may_copy_more_than_with_the_two_lowest() {
    in_each_version(|version| {
        let mut station = more_is_copied(version);
        assert_eq!(carries(3, 15), 15);
        assert_eq!(merged(two_lowest, &station, 1).1, 7);
        let (merges, copied) = merged(buddies_first, &station, 1);
        assert_eq!(taken(&merges), [(1, [13, 17]), (2, [20, 22]), (4, [20, 24]), (8, [0, 16])]);
        assert_eq!((copied, station.remove(1)), (11, Ok(11)));
        let files: &[_] = &[(2, 3, &[(22, 2), (24, 1)][..]), (3, 7, &[(16, 4), (25, 1), (26, 2)])];
        station.lists(28, files, &[(0, 16), (20, 2)]);
        assert!(station.reads_back(2, 3) && station.reads_back(3, 7));
    });
}

/// The same removal block by block: what each has afterwards is what another, or it itself, had before.
#[test]
fn the_copies_of_the_removal_that_copies_more() {
    in_each_version(|version| {
        let mut station = more_is_copied(version);
        let copies = [[(12, 17)].to_vec(), (0..4).map(|i| (16 + i, 24 + i)).collect(), {
            let lower = (0..4).map(|i| (8 + i, 16 + i));
            lower.chain([(14, 22), (15, 23)]).collect()
        }];
        assert_eq!(removal_copies(&station.cat, &station.disk, 1), Ok(copies.concat()));
        let before = station.disk.clone();
        station.remove(1).expect("id 1 is there");
        let from = (0..16).chain([8, 9, 10, 11, 20, 21, 14, 15, 16, 12, 18, 19]);
        let expected: Vec<u8> = from.flat_map(|block: usize| before[block * BLOCK..][..BLOCK].to_vec()).collect();
        assert!(station.disk == expected);
        let pages = [(22, page(2, 0)), (23, page(2, 1)), (24, page(2, 2)), (16, page(3, 0)), (19, page(3, 3))];
        let more = [(26, page(3, 4)), (27, page(3, 5)), (25, page(3, 6))];
        for (block, bytes) in pages.into_iter().chain(more) {
            assert_eq!(station.block(block), bytes, "block {block}");
        }
    });
}

/// Where the buddies are the two lowest, both choices are one.
#[test]
fn buddies_that_are_the_two_lowest() {
    in_each_version(|version| {
        let files: &[_] = &[(1, 3, &[(0, 1), (2, 2)][..]), (2, 2, &[(4, 2)])];
        let mut station = Station::laid_out(version, 8, files, &[(1, 1), (6, 2)]);
        let (merges, copied) = merged(buddies_first, &station, 1);
        assert_eq!((taken(&merges), copied), (vec![(1, [0, 1]), (2, [0, 2])], 0));
        assert_eq!(merges[1].free, [0, 2, 6]);
        assert_eq!(merged(two_lowest, &station, 1).0, merges);
        let disk = station.disk.clone();
        assert_eq!(station.remove(1), Ok(0));
        station.lists(8, &[(2, 2, &[(4, 2)])], &[(0, 4), (6, 2)]);
        assert!(station.disk == disk);
    });
}

/// (6,2) and (8,2) adjoin, but they are not halves of one section: the two lowest are taken.
#[test]
fn neighbours_need_not_be_buddies() {
    in_each_version(|version| {
        let files: &[_] = &[(1, 3, &[(1, 1), (6, 2)][..]), (2, 2, &[(2, 2)]), (3, 2, &[(4, 2)]), (4, 2, &[(10, 2)])];
        let mut station = Station::laid_out(version, 12, files, &[(0, 1), (8, 2)]);
        assert_eq!(removal_copies(&station.cat, &station.disk, 1), Ok(vec![(2, 6), (3, 7)]));
        assert_eq!(station.remove(1), Ok(2));
        let files: &[_] = &[(2, 2, &[(6, 2)][..]), (3, 2, &[(4, 2)]), (4, 2, &[(10, 2)])];
        station.lists(12, files, &[(0, 4), (8, 2)]);
    });
}

/// (6,1) starts where the buddy of (4,2) does, but it is of another height and is not merged with it.
#[test]
fn a_piece_of_another_height_is_no_buddy() {
    in_each_version(|version| {
        let files: &[_] = &[(1, 2, &[(0, 2)][..]), (2, 2, &[(2, 2)]), (3, 1, &[(7, 1)])];
        let mut station = Station::laid_out(version, 8, files, &[(4, 2), (6, 1)]);
        assert_eq!(removal_copies(&station.cat, &station.disk, 1), Ok(vec![(2, 4), (3, 5)]));
        assert_eq!(station.remove(1), Ok(2));
        station.lists(8, &[(2, 2, &[(4, 2)]), (3, 1, &[(7, 1)])], &[(0, 4), (6, 1)]);
    });
}

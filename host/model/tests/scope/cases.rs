//! Cases 1 to 11 of the scope document: the catalogues byte for byte, the copies, the blocks.

use crate::common::{in_each_version, page, Station};
use model::{removal_copies, Version};

#[test]
fn case_1_one_block() {
    in_each_version(|version| {
        Station::fresh(version, 1).lists(1, &[], &[(0, 1)]);
    });
}

#[test]
fn case_2_five_blocks() {
    in_each_version(|version| {
        Station::fresh(version, 5).lists(5, &[], &[(0, 4), (4, 1)]);
    });
}

#[test]
fn case_3_two_hundred_and_sixty_one_blocks() {
    in_each_version(|version| {
        Station::fresh(version, 261).lists(261, &[], &[(0, 256), (256, 4), (260, 1)]);
    });
}

/// The disk of case 4.
fn case_4(version: Version) -> Station {
    let mut station = Station::fresh(version, 16);
    assert_eq!(station.add(5, 3), Ok(3));
    station
}

/// The disk of case 5.
fn case_5(version: Version) -> Station {
    let mut station = case_4(version);
    assert_eq!(station.add(9, 1), Ok(1));
    station
}

/// The disk of case 6.
fn case_6(version: Version) -> Station {
    let mut station = case_5(version);
    assert_eq!(station.add(2, 2), Ok(2));
    station
}

#[test]
fn case_4_a_file_of_three() {
    in_each_version(|version| {
        let station = case_4(version);
        station.lists(16, &[(5, 3, &[(0, 2), (2, 1)])], &[(3, 1), (4, 4), (8, 8)]);
        for number in 0..3 {
            assert_eq!(station.block(number), page(5, number));
        }
        assert!((3..16).all(|number| station.block(number) == [0xCD; 512]));
    });
}

#[test]
fn case_5_a_file_of_one() {
    in_each_version(|version| {
        let files: &[_] = &[(5, 3, &[(0, 2), (2, 1)][..]), (9, 1, &[(3, 1)])];
        case_5(version).lists(16, files, &[(4, 4), (8, 8)]);
        assert_eq!(case_5(version).block(3), page(9, 0));
    });
}

#[test]
fn case_6_a_file_of_two() {
    in_each_version(|version| {
        let files: &[_] = &[(2, 2, &[(4, 2)][..]), (5, 3, &[(0, 2), (2, 1)]), (9, 1, &[(3, 1)])];
        case_6(version).lists(16, files, &[(6, 2), (8, 8)]);
        assert!(case_6(version).reads_back(2, 2));
    });
}

#[test]
fn case_7_a_removal() {
    in_each_version(|version| {
        let mut station = case_6(version);
        assert_eq!(removal_copies(&station.cat, &station.disk, 5), Ok(vec![(3, 7)]));
        assert_eq!(station.remove(5), Ok(1));
        let files: &[_] = &[(2, 2, &[(4, 2)][..]), (9, 1, &[(7, 1)])];
        station.lists(16, files, &[(0, 4), (6, 1), (8, 8)]);
        let left = [(0, page(5, 0)), (1, page(5, 1)), (2, page(5, 2)), (3, page(9, 0)), (7, page(9, 0))];
        for (number, bytes) in left {
            assert_eq!(station.block(number), bytes, "block {number}");
        }
        assert_eq!(station.block(6), [0xCD; 512], "a free block of the target keeps its bytes");
        assert!(station.reads_back(9, 1) && station.reads_back(2, 2));
    });
}

#[test]
fn case_8_nothing_free() {
    in_each_version(|version| {
        let mut station = case_6(version);
        assert_eq!(station.add(7, 11), Err(11));
        assert_eq!((&station.cat, &station.disk), (&case_6(version).cat, &case_6(version).disk));
        assert_eq!(station.add(7, 10), Ok(10));
        let files: &[_] =
            &[(2, 2, &[(4, 2)][..]), (5, 3, &[(0, 2), (2, 1)]), (7, 10, &[(6, 2), (8, 8)]), (9, 1, &[(3, 1)])];
        station.lists(16, files, &[]);
        assert!(station.reads_back(7, 10));
        assert_eq!(station.block(8), page(7, 0));
    });
}

#[test]
fn case_9_buddies_are_not_copied() {
    in_each_version(|version| {
        let mut station = Station::fresh(version, 2);
        assert_eq!(station.add(1, 1), Ok(1));
        assert_eq!(removal_copies(&station.cat, &station.disk, 1), Ok(vec![]));
        assert_eq!(station.remove(1), Ok(0));
        station.lists(2, &[], &[(0, 2)]);
    });
}

#[test]
fn case_10_the_last_section_has_no_buddy() {
    in_each_version(|version| {
        let mut station = Station::fresh(version, 5);
        assert_eq!((station.add(1, 1), station.add(2, 1)), (Ok(1), Ok(1)));
        let files: &[_] = &[(1, 1, &[(4, 1)][..]), (2, 1, &[(0, 1)])];
        station.lists(5, files, &[(1, 1), (2, 2)]);
        assert_eq!(removal_copies(&station.cat, &station.disk, 1), Ok(vec![(0, 4)]));
        assert_eq!(station.remove(1), Ok(1));
        station.lists(5, &[(2, 1, &[(4, 1)])], &[(0, 4)]);
        assert!(station.reads_back(2, 1));
    });
}

#[test]
fn case_11_the_deletion_example_of_the_paper() {
    in_each_version(|version| {
        let files: &[_] = &[(1, 1, &[(13, 1)][..]), (2, 7, &[(0, 4), (4, 2), (6, 1)]), (3, 5, &[(8, 4), (12, 1)])];
        let mut station = Station::laid_out(version, 16, files, &[(7, 1), (14, 2)]);
        assert_eq!(removal_copies(&station.cat, &station.disk, 1), Ok(vec![(6, 13), (4, 14), (5, 15)]));
        assert_eq!(station.remove(1), Ok(3));
        let files: &[_] = &[(2, 7, &[(0, 4), (13, 1), (14, 2)][..]), (3, 5, &[(8, 4), (12, 1)])];
        station.lists(16, files, &[(4, 4)]);
        for (number, block) in [0, 1, 2, 3, 14, 15, 13].into_iter().enumerate() {
            assert_eq!(station.block(block), page(2, number as u32), "block {block}");
        }
        assert!(station.reads_back(2, 7) && station.reads_back(3, 5));
    });
}

//! The rules of soundness: for each, a catalogue that breaks it and no other where that can be had.

use crate::common::{bytes, in_each_version, File, Pairs};
use model::{sound, write, Version};

/// Sets the field of so many bytes that starts at a place.
fn with_field(mut bytes: Vec<u8>, place: usize, width: usize, field: u32) -> Vec<u8> {
    bytes[place..place + width].copy_from_slice(&field.to_be_bytes()[4 - width..]);
    bytes
}

/// Case 6: id 2 at (4,2), id 5 at (0,2) (2,1), id 9 at (3,1), free (6,2) (8,8).
fn case_6(version: Version) -> Vec<u8> {
    bytes(version, 16, &[(2, 2, &[(4, 2)]), (5, 3, &[(0, 2), (2, 1)]), (9, 1, &[(3, 1)])], &[(6, 2), (8, 8)])
}

/// Whether the catalogue is sound, which it is in all versions or in none.
#[track_caller]
fn is_sound(blocks: u32, files: &[File], free: Pairs) -> bool {
    let [first, others @ ..] = Version::ALL.map(|version| sound(&bytes(version, blocks, files, free)).is_some());
    assert!(others.iter().all(|&other| other == first), "only some versions are sound");
    first
}

#[test]
fn a_sound_catalogue_is_read_and_written_back() {
    in_each_version(|version| {
        let catalogue = sound(&case_6(version)).expect("case 6 is sound");
        assert_eq!(catalogue.version, version);
        assert_eq!((catalogue.blocks, catalogue.entries.len(), catalogue.free_blocks()), (16, 3, 10));
        let mut again = vec![0xFF; version.catalogue];
        write(&catalogue, &mut again);
        assert_eq!(again, case_6(version));
    });
}

#[test]
fn the_header() {
    in_each_version(|version| {
        let (blocks_at, files_at) = (2, 2 + version.field);
        for number in (0..6).chain([256, 0x8001, 0x8002, 65_535]).filter(|&n| n != u32::from(version.number)) {
            assert_eq!(sound(&with_field(case_6(version), 0, 2, number)), None, "version {number}");
        }
        for blocks in [0, 15, 17, 4097, 65_535] {
            assert_eq!(sound(&with_field(case_6(version), blocks_at, version.field, blocks)), None, "C {blocks}");
        }
        for files in [0, 1, 2, 4, 64, 65, 65_535] {
            assert_eq!(sound(&with_field(case_6(version), files_at, 2, files)), None, "k {files}");
        }
        assert!(sound(&with_field(case_6(version), files_at, 2, 3)).is_some());
    });
}

#[test]
fn the_number_of_files() {
    let singles: Vec<[(u32, u32); 1]> = (0..65).map(|block| [(block, 1)]).collect();
    let files = |count: u16| -> Vec<File> {
        (0..count).map(|block| (block + 1, 1, &singles[usize::from(block)][..])).collect()
    };
    assert!(is_sound(64, &files(64), &[]));
    assert!(!is_sound(65, &files(65), &[]));
}

#[test]
fn ids_rise_from_1() {
    let with_ids = |a, b| is_sound(2, &[(a, 1, &[(0, 1)]), (b, 1, &[(1, 1)])], &[]);
    assert_eq!([with_ids(1, 2), with_ids(255, 65_535)], [true; 2]);
    assert_eq!([with_ids(0, 2), with_ids(3, 3), with_ids(256, 1)], [false; 3]);
}

#[test]
fn each_file_has_a_block() {
    assert!(!is_sound(2, &[(1, 0, &[])], &[(0, 2)]));
}

#[test]
fn the_sum_of_all_n_is_at_most_c() {
    assert!(!is_sound(2, &[(1, 2, &[(0, 2)]), (2, 1, &[(0, 1)])], &[]));
    assert!(!is_sound(2, &[(1, 32_768, &[(0, 32_768)]), (2, 32_768, &[(0, 32_768)])], &[(0, 2)]));
    in_each_version(|version| {
        // Two n of half the range, which add up to 0 in a field; the free pair is that of the whole disk.
        let half = 1 << (8 * version.field - 1);
        let twice: &[_] = &[(1, half, &[(0, half)][..]), (2, half, &[(0, half)])];
        assert_eq!(sound(&bytes(version, 2, twice, &[(0, 2)])), None);
        // 64 files of as many blocks as a field can say: entries that run past the end.
        let places = 8 * version.field as u32;
        let most: Vec<(u32, u32)> = (0..places).map(|height| (0, 1 << height)).collect();
        let files: Vec<File> = (1..=64).map(|id| (id, u32::MAX >> (32 - places), &most[..])).collect();
        assert_eq!(sound(&bytes(version, 4096, &files, &[])), None);
    });
}

/// 64 files of one piece of 2^31 blocks: they fit into the buffer, and their sum has more than 4 bytes.
#[test]
fn a_sum_of_more_than_four_bytes() {
    let half = 1 << 31;
    let files: Vec<File> = (1..=64).map(|id| (id, half, &[(0, 1 << 31)][..])).collect();
    assert_eq!(sound(&bytes(Version::LARGE, 16, &files, &[(0, 16)])), None);
    assert_eq!(sound(&bytes(Version::LARGE, 16, &files[..2], &[(0, 16)])), None);
}

#[test]
fn pairs_are_sections_of_the_disk() {
    assert!(!is_sound(3, &[(1, 1, &[(0, 1)])], &[(1, 2)]), "not a multiple");
    assert!(!is_sound(3, &[(1, 1, &[(3, 1)])], &[(0, 2)]), "past the end");
    assert!(!is_sound(3, &[(1, 3, &[(0, 3), (3, 0)])], &[]), "no lengths");
    assert!(!is_sound(3, &[(1, 3, &[(0, 2), (65_535, 1)])], &[]), "an end of 65,536");
    assert!(is_sound(3, &[(1, 1, &[(2, 1)])], &[(0, 2)]));
    let last: &[File] = &[(1, 3, &[(0, 2), (u32::MAX, 1)])];
    assert_eq!(sound(&bytes(Version::LARGE, 3, last, &[])), None, "an end of 2^32");
}

#[test]
fn pairs_are_sorted_and_lengths_are_the_ones_of_n() {
    assert!(!is_sound(3, &[], &[(2, 1), (0, 2)]), "not sorted");
    assert!(!is_sound(3, &[(1, 3, &[(2, 1), (0, 2)])], &[]), "not sorted in a file");
    assert!(!is_sound(5, &[], &[(0, 4), (0, 1)]), "equal first blocks");
    assert!(!is_sound(6, &[], &[(0, 2), (2, 4)]), "not a multiple");
    assert!(!is_sound(6, &[], &[(0, 2), (4, 2)]), "a length twice, and a wrong sum");
    assert!(!is_sound(4, &[(1, 3, &[(0, 1), (2, 2)])], &[(1, 2)]), "free lengths that are not f");
    assert!(!is_sound(6, &[(1, 3, &[(0, 1), (4, 1)])], &[(1, 1), (2, 2)]), "lengths that are not n");
    assert!(is_sound(5, &[], &[(0, 4), (4, 1)]));
}

#[test]
fn no_two_pairs_share_a_block() {
    assert!(!is_sound(4, &[(1, 1, &[(0, 1)]), (2, 1, &[(0, 1)])], &[(2, 2)]));
    assert!(!is_sound(4, &[(1, 1, &[(2, 1)]), (2, 1, &[(1, 1)])], &[(2, 2)]));
    assert!(is_sound(4, &[(1, 1, &[(0, 1)]), (2, 1, &[(1, 1)])], &[(2, 2)]));
}

#[test]
fn zero_bytes_to_the_end() {
    in_each_version(|version| {
        let right = bytes(version, 16, &[], &[(0, 16)]);
        let used = right.iter().rposition(|&byte| byte != 0).expect("a header") + 1;
        assert!(sound(&right).is_some());
        for place in [used, used + 1, 2048, 3382, version.catalogue - 1] {
            let mut bytes = right.clone();
            bytes[place] = 1;
            assert_eq!(sound(&bytes), None, "byte {place}");
        }
    });
}

#[test]
fn the_length_of_the_buffer() {
    in_each_version(|version| {
        assert_eq!(sound(&case_6(version)[..version.catalogue - 1]), None);
        assert_eq!(sound(&[case_6(version), vec![0]].concat()), None);
    });
}

//! The versions of the catalogue: bytes that are written out, the limits of each, and that none suits another buffer.

use crate::common::{bytes, in_each_version, Station};
use model::{add, breaks, check, format, free, read, remove, replace, sound, Version, BLOCK};

/// Case 7: id 2 at (4,2), id 9 at (7,1), free (0,4) (6,1) (8,8).
fn case_7(version: Version) -> Station {
    let mut station = Station::fresh(version, 16);
    assert_eq!([station.add(5, 3), station.add(9, 1), station.add(2, 2)], [Ok(3), Ok(1), Ok(2)]);
    assert_eq!(station.remove(5), Ok(1));
    station
}

#[test]
fn case_7_byte_by_byte_in_version_1() {
    let mut written = vec![0, 1, 0, 16, 0, 2];
    written.extend([0, 2, 0, 2, 0, 4, 0, 2]);
    written.extend([0, 9, 0, 1, 0, 7, 0, 1]);
    written.extend([0, 0, 0, 4, 0, 6, 0, 1, 0, 8, 0, 8]);
    written.resize(4096, 0);
    assert_eq!(case_7(Version::SMALL).cat, written);
}

#[test]
fn case_7_byte_by_byte_in_version_2() {
    let mut written = vec![0, 2, 0, 0, 0, 16, 0, 2];
    written.extend([0, 2, 0, 0, 0, 2, 0, 0, 0, 4, 0, 0, 0, 2]);
    written.extend([0, 9, 0, 0, 0, 1, 0, 0, 0, 7, 0, 0, 0, 1]);
    written.extend([0, 0, 0, 0, 0, 0, 0, 4, 0, 0, 0, 6, 0, 0, 0, 1, 0, 0, 0, 8, 0, 0, 0, 8]);
    written.resize(16_384, 0);
    assert_eq!(case_7(Version::LARGE).cat, written);
}

#[test]
fn the_bytes_of_a_large_number() {
    let mut cat = vec![0xFF; 16_384];
    assert_eq!(format(&mut cat, &vec![0; 1_048_575 * BLOCK]), Ok(1_048_575));
    assert_eq!(cat[..16], [0, 2, 0, 15, 255, 255, 0, 0, 0, 0, 0, 0, 0, 8, 0, 0]);
    assert_eq!(cat[8 + 19 * 8..][..16], [0, 15, 255, 254, 0, 0, 0, 1, 0, 0, 0, 0, 0, 0, 0, 0]);
    assert_eq!(free(&cat), Ok(1_048_575));
}

#[test]
fn the_greatest_disk_of_each_version() {
    for (version, most) in [(Version::SMALL, 4096), (Version::LARGE, 1_048_576)] {
        assert!(sound(&bytes(version, most, &[], &[(0, most)])).is_some());
        assert_eq!(sound(&bytes(version, most + 1, &[], &[(0, most), (most, 1)])), None);
        assert_eq!(sound(&bytes(version, 2 * most, &[], &[(0, 2 * most)])), None, "a length of twice the greatest");
    }
    for blocks in [4097, 5000, 8192, 65_536, 65_537, 1_048_575] {
        let ones = |place: &u32| blocks >> place & 1 == 1;
        let (mut first, mut free) = (0, Vec::new());
        for length in (0..20).rev().filter(ones).map(|place| 1 << place) {
            free.push((first, length));
            first += length;
        }
        assert!(sound(&bytes(Version::LARGE, blocks, &[], &free)).is_some(), "C {blocks}");
    }
    assert_eq!(sound(&bytes(Version::LARGE, u32::MAX, &[], &[])), None);
}

/// The bytes of one version in the buffer of the other, and other numbers in the place of the version, are not sound.
#[test]
fn no_version_suits_another_buffer() {
    in_each_version(|version| {
        let Station { cat, mut disk, .. } = case_7(version);
        for other in Version::ALL.into_iter().filter(|&other| other != version) {
            let mut lent = cat.clone();
            lent.resize(other.catalogue, 0);
            let before = (lent.clone(), disk.clone());
            assert_eq!([free(&lent), breaks(&lent, 2), check(&lent, &disk)], [Err(3); 3]);
            assert_eq!(read(&lent, &disk, 2, 0, &mut [0; BLOCK]), Err(3));
            assert_eq!(add(&mut lent, &mut disk, 1, &[0; BLOCK]), Err(3));
            assert_eq!(remove(&mut lent, &mut disk, 2), Err(3));
            assert_eq!(replace(&mut lent, &mut disk, 2, &[b'M'; BLOCK]), Err(3));
            assert_eq!((&lent, &disk), (&before.0, &before.1));
        }
    });
}

/// Lengths that no version has are refused with 1 by every call, and no byte changes.
#[test]
fn other_lengths_of_the_buffer() {
    let mut disk = vec![7; 16 * BLOCK];
    for length in [0, 1, 2, 4095, 4097, 8192, 16_383, 16_385, 32_768] {
        let source = case_7(if length < 16_384 { Version::SMALL } else { Version::LARGE });
        let mut lent = source.cat.clone();
        lent.resize(length, 0);
        let before = lent.clone();
        assert_eq!([free(&lent), breaks(&lent, 0), check(&lent, &disk)], [Err(1); 3], "{length}");
        assert_eq!(read(&lent, &disk, 0, 0, &mut []), Err(1));
        assert_eq!([add(&mut lent, &mut disk, 0, &[]), remove(&mut lent, &mut disk, 0)], [Err(1); 2]);
        assert_eq!(replace(&mut lent, &mut disk, 0, &[]), Err(1));
        assert_eq!(format(&mut lent, &disk), Err(1));
        assert_eq!(lent, before);
    }
    assert_eq!(disk, vec![7; 16 * BLOCK]);
}

/// A file with a piece for each height up to the greatest but one, on the greatest disk that has no piece of it.
#[test]
fn a_file_of_the_most_pieces() {
    let version = Version::LARGE;
    let most = version.most_blocks as u32 - 1;
    let mut station = Station::fresh(version, 8191);
    assert_eq!(station.add(1, 8191), Ok(8191));
    assert_eq!((breaks(&station.cat, 1), free(&station.cat)), (Ok(0), Ok(0)));
    assert!(station.reads_back(1, 8191));
    let mut map = model::BlockMap::fresh(version, most);
    map.add(1, most);
    assert_eq!(map.catalogue().entries[0].pairs.len(), 20);
    assert!(map.pages(1).into_iter().eq(0..most as usize));
    assert_eq!(map.breaks(1), 0);
    assert_eq!(map.remove(1), []);
    assert_eq!(map, model::BlockMap::fresh(version, most));
}

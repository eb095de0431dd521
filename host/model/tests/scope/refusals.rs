//! The refusals: each number, the order of the numbers, the limits, and that a refused call changes no byte.

use crate::common::{content, in_each_version, Station};
use model::{add, breaks, check, format, free, read, remove, BLOCK};

const MARK: u8 = 0x5A;

#[test]
fn format_is_refused_by_length_alone() {
    in_each_version(|version| {
        let (bytes, most) = (version.catalogue, version.most_blocks);
        let mut cat = vec![MARK; bytes];
        let mut other = vec![MARK; bytes + 1];
        // A long disk of zero bytes takes no memory until it is touched, and format does not touch it.
        for length in [0, 1, 511, 513, most * BLOCK + 1, (most + 1) * BLOCK] {
            assert_eq!(format(&mut cat, &vec![0; length]), Err(2), "{length}");
            assert_eq!(format(&mut other, &vec![0; length]), Err(1), "{length}");
        }
        assert_eq!((cat, other), (vec![MARK; bytes], vec![MARK; bytes + 1]));
        for blocks in [1, 2, 4095, 4096, most - 1, most] {
            assert_eq!(format(&mut vec![MARK; bytes], &vec![0; blocks * BLOCK]), Ok(blocks as u64));
        }
    });
}

#[test]
fn the_order_of_the_refusals_of_add() {
    in_each_version(|version| {
        let mut station = Station::fresh(version, 2);
        assert_eq!(station.add(3, 1), Ok(1));
        let (cat, disk) = (station.cat.clone(), station.disk.clone());
        let bad = vec![0xFF; version.catalogue];
        let try_add = |cat: &[u8], disk_length: usize, id, length| {
            let (mut lent, mut lent_disk) = (cat.to_vec(), disk.clone());
            lent_disk.resize(disk_length, 0);
            let before = (lent.clone(), lent_disk.clone());
            let answer = add(&mut lent, &mut lent_disk, id, &vec![1; length]);
            assert!(answer.is_ok() || (lent, lent_disk) == before);
            answer
        };
        assert_eq!(try_add(&bad[1..], 0, 0, 1), Err(1));
        assert_eq!(try_add(&bad, 0, 0, 1), Err(3));
        assert_eq!(try_add(&cat, 1023, 0, 1), Err(4));
        assert_eq!(try_add(&cat, 1024, 0, 1), Err(5));
        assert_eq!(try_add(&cat, 1024, 3, 1), Err(7));
        assert_eq!(try_add(&cat, 1024, 4, 0), Err(8));
        assert_eq!(try_add(&cat, 1024, 4, 511), Err(8));
        assert_eq!(try_add(&cat, 1024, 4, 1025), Err(8));
        assert_eq!(try_add(&cat, 1024, 4, 1024), Err(11));
        assert_eq!(try_add(&cat, 1024, 4, 70_000 * BLOCK), Err(11));
        assert_eq!(try_add(&cat, 1024, 4, 512), Ok(1));
    });
}

#[test]
fn the_64th_file_passes_and_the_65th_does_not() {
    in_each_version(|version| {
        let mut station = Station::fresh(version, 64);
        assert!((1..=63).all(|id| station.add(id, 1) == Ok(1)));
        assert_eq!(station.add(64, 1), Ok(1));
        assert_eq!(station.add(65, 1), Err(10), "64 files and nothing free: the lower number");
        assert_eq!(station.add(64, 1), Err(7));
        assert_eq!(free(&station.cat), Ok(0));
        assert_eq!(station.remove(1), Ok(0));
        assert_eq!(station.add(65, 2), Err(11));
        assert_eq!(station.add(65_535, 1), Ok(1));
    });
}

#[test]
fn the_order_of_the_refusals_of_read() {
    in_each_version(|version| {
        let mut station = Station::fresh(version, 16);
        assert_eq!(station.add(5, 3), Ok(3));
        let try_read = |cat: &[u8], disk: &[u8], id, first, length| {
            let mut out = vec![MARK; length];
            let answer = read(cat, disk, id, first, &mut out);
            assert!(answer.is_ok() || out.iter().all(|&byte| byte == MARK));
            answer
        };
        let (cat, disk, unsound) = (&station.cat, &station.disk, vec![0; version.catalogue]);
        assert_eq!(try_read(&cat[1..], &disk[1..], 0, 9, 0), Err(1));
        assert_eq!(try_read(&unsound, &disk[1..], 0, 9, 0), Err(3));
        assert_eq!(try_read(cat, &disk[1..], 0, 9, 0), Err(4));
        assert_eq!(try_read(cat, disk, 0, 9, 0), Err(5));
        assert_eq!(try_read(cat, disk, 6, 9, 0), Err(6));
        assert_eq!(try_read(cat, disk, 5, 9, 0), Err(8));
        assert_eq!(try_read(cat, disk, 5, 9, 511), Err(8));
        assert_eq!(try_read(cat, disk, 5, 2, 1024), Err(9));
        assert_eq!(try_read(cat, disk, 5, u64::MAX, 512), Err(9));
        assert_eq!(try_read(cat, disk, 5, 2, 512), Ok(1));
        assert_eq!(try_read(cat, disk, 5, 0, 1536), Ok(3));
    });
}

#[test]
fn the_order_of_the_refusals_of_the_other_calls() {
    in_each_version(|version| {
        let unsound = vec![0; version.catalogue];
        let Station { mut cat, mut disk, .. } = Station::fresh(version, 3);
        let before = (cat.clone(), disk.clone());
        assert_eq!(remove(&mut cat[1..], &mut disk[1..], 0), Err(1));
        assert_eq!(remove(&mut unsound.clone(), &mut disk[1..], 0), Err(3));
        assert_eq!(remove(&mut cat, &mut disk[1..], 0), Err(4));
        assert_eq!(remove(&mut cat, &mut disk, 0), Err(5));
        assert_eq!(remove(&mut cat, &mut disk, 1), Err(6));
        assert_eq!((&cat, &disk), (&before.0, &before.1));
        assert_eq!([breaks(&cat[1..], 0), breaks(&unsound, 0)], [Err(1), Err(3)]);
        assert_eq!([breaks(&cat, 0), breaks(&cat, 1)], [Err(5), Err(6)]);
        assert_eq!([free(&cat[1..]), free(&unsound), free(&cat)], [Err(1), Err(3), Ok(3)]);
        assert_eq!([check(&cat[1..], &disk[1..]), check(&unsound, &disk[1..])], [Err(1), Err(3)]);
        assert_eq!([check(&cat, &disk[1..]), check(&cat, &disk)], [Err(4), Ok(3)]);
    });
}

#[test]
fn a_full_disk_of_one_file() {
    in_each_version(|version| {
        let mut station = Station::fresh(version, 4096);
        assert_eq!(station.add(1, 4096), Ok(4096));
        station.lists(4096, &[(1, 4096, &[(0, 4096)])], &[]);
        assert_eq!(station.disk, content(1, 4096));
        assert_eq!(station.remove(1), Ok(0));
        station.lists(4096, &[], &[(0, 4096)]);
    });
}

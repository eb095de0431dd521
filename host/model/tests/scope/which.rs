//! Which removals would let a file in: the second implementation, beside removals and adds that are made, and the book.

use crate::common::{content, in_each_version, Station};
use model::{add, sound, which, Book, Version, BLOCK, FITS_ALREADY, MOST_FILES};

/// A number that is neither 0 nor an id of these tests. The list holds it before a call.
const OTHER: u16 = 0x7E7E;

/// What a call answers for n: how many ids and which, or nothing for "fits already".
type Asked = Option<(u64, Vec<u16>)>;

fn asked(cat: &[u8], n: u64) -> Asked {
    let mut places = [OTHER; MOST_FILES];
    let answer = which(cat, n, &mut places).expect("n is not 0, and the list has its places");
    let ids = places.split(|&id| id == 0).next().unwrap_or_default().to_vec();
    assert!(places[ids.len()..].iter().all(|&id| id == 0), "zeros to the end: {places:?}");
    assert!(answer != FITS_ALREADY || ids.is_empty());
    (answer != FITS_ALREADY).then_some((answer, ids))
}

/// As many as there are, in this order.
fn list(ids: &[u16]) -> Asked {
    Some((ids.len() as u64, ids.to_vec()))
}

/// The answers for each n of a disk, as they are by calls that are really made: an add of n blocks fits already, or it
/// fits after the removal of a file, and that file is listed in its place by what the removal answers.
fn as_by_calls(station: &Station) {
    let catalogue = sound(&station.cat).expect("the disks of these tests have sound catalogues");
    let fits = |cat: &[u8], disk: &[u8], n: u32| {
        add(&mut cat.to_vec(), &mut disk.to_vec(), OTHER, &content(OTHER, n)) != Err(11)
    };
    let mut removals = Vec::new();
    for entry in &catalogue.entries {
        let (mut cat, mut disk) = (station.cat.clone(), station.disk.clone());
        removals.push((model::remove(&mut cat, &mut disk, entry.id), entry.id, cat, disk));
    }
    removals.sort_by_key(|(copied, id, ..)| (*copied, *id));
    for n in 1..=catalogue.blocks + 1 {
        let helping = removals.iter().filter(|(_, _, cat, disk)| fits(cat, disk, n));
        let ids: Vec<u16> = helping.map(|(_, id, ..)| *id).collect();
        let expected = if fits(&station.cat, &station.disk, n) { None } else { list(&ids) };
        assert_eq!(asked(&station.cat, n.into()), expected, "{n} blocks on {catalogue:?}");
    }
}

/// The book of the same files: it has their ids, but no order, and fits where the disk does.
fn as_by_lines(station: &Station) {
    let catalogue = sound(&station.cat).expect("the disks of these tests have sound catalogues");
    let mut book = Book::new(catalogue.blocks.into());
    for entry in &catalogue.entries {
        assert_eq!(book.add(entry.id, &content(entry.id, entry.blocks)), Ok(entry.blocks.into()));
    }
    for n in (1..=u64::from(catalogue.blocks) + 1).chain([1 << 20, 1 << 32, u64::MAX]) {
        let lines = book.which(n, MOST_FILES).expect("n is not 0, and the list has its places");
        let by_id = asked(&station.cat, n).map(|(answer, mut ids)| {
            ids.sort_unstable();
            (answer, ids)
        });
        assert_eq!(by_id, lines.map(|ids| (ids.len() as u64, ids.into_iter().collect())), "{n}");
    }
}

/// A disk of so many blocks, to which files of these ids and lengths are added.
fn filled(version: Version, blocks: u32, files: &[(u16, u32)]) -> Station {
    let mut station = Station::fresh(version, blocks);
    for &(id, pages) in files {
        assert_eq!(station.add(id, pages), Ok(pages.into()));
    }
    station
}

/// The answers of one disk: for each n the list, or nothing for "fits already".
fn answers(station: &Station, rows: &[(u64, Asked)]) {
    for (n, expected) in rows {
        assert_eq!(asked(&station.cat, *n), *expected, "{n}");
    }
    as_by_calls(station);
    as_by_lines(station);
}

#[test]
fn the_rows_of_the_request() {
    in_each_version(|version| {
        let six = filled(version, 16, &[(5, 3), (9, 1), (2, 2)]);
        let none = list(&[]);
        let rows = [(10, None), (11, list(&[2, 9, 5])), (12, list(&[2, 5])), (13, list(&[5])), (14, none.clone())];
        answers(&six, &rows);
        let five = filled(version, 16, &[(1, 3), (2, 3), (3, 3), (4, 3), (6, 2)]);
        answers(&five, &[(2, None), (3, list(&[6, 1, 4, 2, 3])), (5, list(&[1, 4, 2, 3])), (6, none)]);
    });
}

/// Counted by all blocks of a buddy, 3 would come behind 1: the buddy that moves for it has a free half.
#[test]
fn held_blocks_alone_are_counted() {
    in_each_version(|version| {
        let mut station = filled(version, 8, &[(1, 1), (2, 1), (3, 2), (4, 2)]);
        assert_eq!(station.remove(2), Ok(0));
        answers(&station, &[(3, None), (4, list(&[4, 3, 1])), (5, list(&[4, 3])), (6, list(&[]))]);
    });
}

/// With the two lowest sections always, the removal of 3 would copy 2 blocks, and that of 2 copies 1.
#[test]
fn free_buddies_are_merged_first() {
    in_each_version(|version| {
        let mut station = filled(version, 8, &[(1, 1), (2, 2), (3, 3)]);
        assert_eq!(station.remove(1), Ok(0));
        answers(&station, &[(3, None), (4, list(&[3, 2])), (5, list(&[3, 2])), (6, list(&[3])), (7, list(&[]))]);
    });
}

/// On 1 to 10 blocks: three files of any lengths, and what the removal of one of them leaves.
#[test]
fn all_disks_of_three_files() {
    in_each_version(|version| {
        for blocks in 1..=10 {
            for (a, b) in (0..=blocks).flat_map(|a| (0..=blocks - a).map(move |b| (a, b))) {
                for c in 0..=blocks - a - b {
                    let files: Vec<_> = [(7, a), (3, b), (5, c)].into_iter().filter(|&(_, pages)| pages > 0).collect();
                    let mut station = filled(version, blocks, &files);
                    as_by_calls(&station);
                    as_by_lines(&station);
                    if files.len() == 3 {
                        assert!(station.remove(3).is_ok());
                        as_by_calls(&station);
                    }
                }
            }
        }
    });
}

/// 64 files: all are listed, by rising id, as no removal copies a block; and it fits already where an add gives 10.
#[test]
fn at_64_files() {
    in_each_version(|version| {
        let files: Vec<(u16, u32)> = (1..=64).rev().map(|id| (id, 1)).collect();
        let all = list(&(1..=64).collect::<Vec<u16>>());
        assert_eq!(asked(&filled(version, 64, &files).cat, 1), all);
        let mut station = filled(version, 66, &files);
        assert_eq!((asked(&station.cat, 2), station.add(65, 2)), (None, Err(10)));
        assert_eq!((asked(&station.cat, 4), asked(&station.cat, u64::MAX)), (list(&[]), list(&[])));
        as_by_lines(&station);
    });
}

/// 1, 3, 8, 14: all from some number on hold at once, and the first is given. The list keeps its numbers.
#[test]
fn the_order_of_the_refusals() {
    in_each_version(|version| {
        let Station { cat, .. } = filled(version, 4, &[(3, 2)]);
        let (book, unsound) = (Book::new(4), vec![0; version.catalogue]);
        for length in [0, 1, 63, 64, 65, 127, BLOCK] {
            let mut places = vec![OTHER; length];
            for n in [0, 1, 2, 3, u64::MAX] {
                assert_eq!(which(&cat[1..], n, &mut places), Err(1));
                assert_eq!(which(&unsound, n, &mut places), Err(3));
            }
            assert_eq!((which(&cat, 0, &mut places), book.which(0, length)), (Err(8), Err(8)));
            for n in [1, 2, 3, u64::MAX].into_iter().filter(|_| length != MOST_FILES) {
                assert_eq!((which(&cat, n, &mut places), book.which(n, length)), (Err(14), Err(14)));
            }
            assert_eq!(places, vec![OTHER; length]);
        }
    });
}

//! Which removals would let a file in, by the exported call.

use crate::station::{bytes, Files, Pairs, Station};
use crate::{before_case_11, case_6};
use event_disk::{Refusal, Version, Which, BLOCK, MOST_FILES};

/// What the list holds before a call, in all its places.
const BEFORE: u16 = 0xabcd;

/// The answer, and the ids in the list. Only zeros may follow them.
fn asked(cat: &[u8], n: u64) -> (Which, Vec<u16>) {
    let mut places = [BEFORE; MOST_FILES];
    let answer = event_disk::which(cat, n, &mut places).expect("neither catalogue nor n is refused");
    let count = match answer {
        Which::FitsAlready => 0,
        Which::Removals(count) => count,
    };
    let (ids, rest) = places.split_at(count);
    assert!(!ids.contains(&0) && rest.iter().all(|place| *place == 0), "{n}: {answer:?} with {places:?}");
    (answer, ids.to_vec())
}

fn fits(cat: &[u8], n: u64) {
    assert_eq!(asked(cat, n), (Which::FitsAlready, vec![]), "{n}");
}

fn helps(cat: &[u8], n: u64, ids: &[u16]) {
    assert_eq!(asked(cat, n), (Which::Removals(ids.len()), ids.to_vec()), "{n}");
}

/// The blocks that a removal of each file copies, its id, and the blocks that are free afterwards.
fn removals(s: &Station) -> Vec<(u64, u16, u64)> {
    let listing = event_disk::list(&s.cat).expect("a sound catalogue");
    let removal = |id: u16| {
        let (mut cat, mut disk) = (s.cat.clone(), s.disk.clone());
        let copied = event_disk::remove(&mut cat, &mut disk, id).expect("the file is there");
        (copied, id, event_disk::free(&cat).expect("a sound catalogue"))
    };
    listing.files.iter().map(|file| removal(file.id)).collect()
}

/// For each n up to more than the disk has, the list is that of the removals that leave n free blocks, in their order.
fn goes_by_removals(s: &Station) {
    let mut removals = removals(s);
    removals.sort_unstable();
    let (free, blocks) = (event_disk::free(&s.cat).expect("a sound catalogue"), (s.disk.len() / BLOCK) as u64);
    (1..=free).for_each(|n| fits(&s.cat, n));
    for n in free + 1..=blocks + 1 {
        let enough = removals.iter().filter(|(_, _, left)| *left >= n);
        helps(&s.cat, n, &enough.map(|(_, id, _)| *id).collect::<Vec<_>>());
    }
}

/// 10 blocks are free. Removing 2 or 9 copies nothing, and removing 5 copies a block.
#[test]
fn the_rows_of_case_6() {
    for s in Version::ALL.map(case_6) {
        fits(&s.cat, 1);
        fits(&s.cat, 10);
        helps(&s.cat, 11, &[2, 9, 5]);
        helps(&s.cat, 12, &[2, 5]);
        helps(&s.cat, 13, &[5]);
        helps(&s.cat, 14, &[]);
        goes_by_removals(&s);
    }
}

/// 2 blocks are free. Files 1 to 4 are equally long: removing 1 or 4 copies a block, and removing 2 or 3 copies two.
#[test]
fn equal_counts_stand_by_lower_id() {
    for mut s in Version::ALL.map(|version| Station::fresh(version, 16)) {
        assert!((1..=4).all(|id| s.add(id, 3) == Ok(3)) && s.add(6, 2) == Ok(2));
        let copies: Vec<_> = removals(&s).iter().map(|(copied, id, _)| (*id, *copied)).collect();
        assert_eq!(copies, [(1, 1), (2, 2), (3, 2), (4, 1), (6, 0)]);
        fits(&s.cat, 2);
        helps(&s.cat, 3, &[6, 1, 4, 2, 3]);
        helps(&s.cat, 4, &[6, 1, 4, 2, 3]);
        helps(&s.cat, 5, &[1, 4, 2, 3]);
        helps(&s.cat, 6, &[]);
        goes_by_removals(&s);
    }
}

/// Disks by hand: free pieces inside the buddy, and a removal that copies more than with the two lowest always.
#[test]
fn the_order_is_that_of_removals() {
    const DISKS: [(u32, Files, Pairs); 2] = [
        (
            32,
            &[(1, 8, &[(0, 8)]), (2, 3, &[(8, 1), (10, 2)]), (3, 2, &[(14, 2)]), (4, 8, &[(24, 8)])],
            &[(9, 1), (12, 2), (16, 8)],
        ),
        (
            28,
            &[
                (1, 15, &[(0, 8), (17, 1), (22, 2), (24, 4)]),
                (2, 3, &[(14, 2), (16, 1)]),
                (3, 7, &[(8, 4), (12, 1), (18, 2)]),
            ],
            &[(13, 1), (20, 2)],
        ),
    ];
    for version in Version::ALL {
        goes_by_removals(&before_case_11(version));
        for (blocks, files, free) in DISKS {
            let cat = bytes(version, blocks, files, free);
            goes_by_removals(&Station { version, cat, disk: vec![0; blocks as usize * BLOCK] });
        }
    }
}

/// Added from 64 down to 1, so that neither place nor age gives the order; with and without a free block.
#[test]
fn all_64_files_may_be_listed() {
    for version in Version::ALL {
        for free in [0, 1, 6] {
            let mut s = Station::fresh(version, 64 + free);
            assert!((1..=64).rev().all(|id| s.add(id, 1) == Ok(1)));
            assert_eq!(asked(&s.cat, u64::from(free) + 1).0, Which::Removals(64));
            goes_by_removals(&s);
        }
    }
}

#[test]
fn any_number_of_blocks_is_answered() {
    for version in Version::ALL {
        let (empty, mut full) = (Station::fresh(version, 5), Station::fresh(version, 5));
        assert_eq!(full.add(65_535, 5), Ok(5));
        fits(&empty.cat, 5);
        helps(&full.cat, 1, &[65_535]);
        helps(&full.cat, 5, &[65_535]);
        for n in [6, 4096, 65_536 + 5, 1 << 20, 1 << 32, (1 << 32) + 5, 1 << 63, u64::MAX - 1, u64::MAX] {
            helps(&empty.cat, n, &[]);
            helps(&full.cat, n, &[]);
        }
    }
}

/// 1, 3, 8 and 14, and each before the next. No refused call writes to the list.
#[test]
fn the_order_of_the_refusals() {
    for s in Version::ALL.map(case_6) {
        let (long, unsound) = ([&s.cat[..], &[0]].concat(), vec![0; s.cat.len()]);
        for length in [0, 1, 63, 64, 65, 128] {
            let refused = |cat: &[u8], n| {
                let mut places = vec![BEFORE; length];
                let answer = event_disk::which(cat, n, &mut places);
                assert!(answer.is_ok() || places.iter().all(|place| *place == BEFORE), "{n}: {places:?}");
                answer.err()
            };
            for n in [0, 1, 11, 14, u64::MAX] {
                assert_eq!(refused(&s.cat[1..], n), Some(Refusal::CatalogueLength));
                assert_eq!(refused(&long, n), Some(Refusal::CatalogueLength));
                assert_eq!(refused(&unsound, n), Some(Refusal::NotSound));
                let last = (length != MOST_FILES).then_some(Refusal::ListLength);
                assert_eq!(refused(&s.cat, n), if n == 0 { Some(Refusal::BufferLength) } else { last });
            }
        }
    }
}

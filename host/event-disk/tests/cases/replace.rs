//! A reviewed file takes the place of the raw one, by the exported calls.

use crate::case_6;
use crate::station::{bytes, page, Files, Station};
use event_disk::{carries, Refusal, Version, BLOCK};

/// Pages of a file with a quality letter. At its end each page has it too, so that no page is one of another letter.
fn reviewed(id: u16, letter: u8, pages: usize) -> Vec<u8> {
    let mut content: Vec<u8> = (0..pages).flat_map(|number| page(id, number)).collect();
    content.chunks_mut(BLOCK).for_each(|page| page[BLOCK - 1] = letter);
    content[6] = letter;
    content
}

fn replace(s: &mut Station, id: u16, content: &[u8]) -> Result<u64, Refusal> {
    let before = (s.cat.clone(), s.disk.clone());
    let answer = event_disk::replace(&mut s.cat, &mut s.disk, id, content);
    assert!(answer.is_ok() || (&s.cat, &s.disk) == (&before.0, &before.1), "a refused call changed a byte");
    answer
}

/// The removal is that of case 7: file 9 is copied from block 3 to block 7. Then the new file gets (0,2) and (6,1).
#[test]
fn what_a_removal_and_an_add_leave() {
    const FILES: Files = &[(2, 2, &[(4, 2)]), (5, 3, &[(0, 2), (6, 1)]), (9, 1, &[(7, 1)])];
    for mut s in Version::ALL.map(case_6) {
        let (mut cat, mut disk) = (s.cat.clone(), s.disk.clone());
        let content = reviewed(5, b'Q', 3);
        assert_eq!(replace(&mut s, 5, &reviewed(5, b'Q', 14)), Err(Refusal::NoSpace), "then nothing is copied");
        assert_eq!(event_disk::remove(&mut cat, &mut disk, 5), Ok(1));
        assert_eq!(event_disk::add(&mut cat, &mut disk, 5, &content), Ok(3));
        assert_eq!((replace(&mut s, 5, &content), carries(10, 3)), (Ok(1), 2));
        assert!((&s.cat, &s.disk) == (&cat, &disk));
        assert_eq!(s.cat, bytes(s.version, 16, FILES, &[(2, 2), (8, 8)]));
        let mut out = vec![0; 3 * BLOCK];
        assert_eq!(event_disk::read(&s.cat, &s.disk, 5, 0, &mut out), Ok(3));
        assert_eq!(out, content);
        assert_eq!(s.disk[2 * BLOCK..][..BLOCK], page(5, 2), "a block that got free keeps its bytes");
    }
}

#[test]
fn a_letter_has_to_rank_above_the_stored_one() {
    for mut s in Version::ALL.map(case_6) {
        for letter in *b"RDQM" {
            assert_eq!(replace(&mut s, 2, &reviewed(2, letter, 2)), Ok(0), "above all before, or above a byte of none");
            for equal_or_below in b"RDQM".iter().take_while(|&&other| other != letter).chain([&letter]) {
                assert_eq!(replace(&mut s, 2, &reviewed(2, *equal_or_below, 2)), Err(Refusal::LetterNotAbove));
            }
            for none in [0, b'r', b'm', b'C', b'E', b'L', b'N', b'P', b'S', b' ', 255] {
                assert_eq!(replace(&mut s, 2, &reviewed(2, none, 2)), Err(Refusal::LetterUnknown), "{none}");
            }
        }
    }
}

/// The first page is in the longest piece: here in block 4, while the first pair is block 0.
#[test]
fn the_stored_letter_is_that_of_the_longest_piece() {
    const FILES: Files = &[(1, 7, &[(0, 1), (2, 2), (4, 4)])];
    for version in Version::ALL {
        for (stored, answer) in [([b'M', b'M', b'D'], Ok(0)), ([b'R', b'R', b'Q'], Err(Refusal::LetterNotAbove))] {
            let (cat, disk) = (bytes(version, 8, FILES, &[(1, 1)]), vec![7; 8 * BLOCK]);
            let mut s = Station { version, cat, disk };
            for (block, letter) in [0, 2, 4].into_iter().zip(stored) {
                s.disk[block * BLOCK + 6] = letter;
            }
            assert_eq!(replace(&mut s, 1, &reviewed(1, b'Q', 1)), answer);
        }
    }
}

/// Of 16 blocks 10 are free, and the file has 3. The lower letters are refused first, and the lengths before them.
#[test]
fn the_order_of_the_refusals() {
    for mut s in Version::ALL.map(case_6) {
        assert_eq!(replace(&mut s, 5, &reviewed(5, b'D', 3)), Ok(1));
        let long = |letter| reviewed(5, letter, 14);
        assert_eq!(replace(&mut s, 5, &long(b'X')), Err(Refusal::LetterUnknown));
        assert_eq!(replace(&mut s, 5, &long(b'D')), Err(Refusal::LetterNotAbove));
        assert_eq!(replace(&mut s, 5, &long(b'Q')), Err(Refusal::NoSpace));
        for length in [0, 1, 6, 7, 511, 513] {
            assert_eq!(replace(&mut s, 5, &long(b'X')[..length]), Err(Refusal::BufferLength), "{length} bytes");
            assert_eq!(replace(&mut s, 6, &long(b'X')[..length]), Err(Refusal::IdMissing));
            assert_eq!(replace(&mut s, 0, &long(b'X')[..length]), Err(Refusal::IdZero));
        }
        assert_eq!(replace(&mut s, 5, &reviewed(5, b'Q', 13)), Ok(0), "all that is free, and all that it had");
        assert_eq!(event_disk::free(&s.cat), Ok(0));
        let Station { version, mut cat, mut disk } = s;
        let mut call = |cat: &mut [u8], short| event_disk::replace(cat, &mut disk[short..], 0, &[]);
        assert_eq!(call(&mut cat, 1), Err(Refusal::DiskLength));
        assert_eq!(call(&mut cat[1..], 1), Err(Refusal::CatalogueLength));
        assert_eq!(call(&mut vec![0; version.catalogue], 1), Err(Refusal::NotSound));
    }
}

#[test]
fn among_64_files_one_is_replaced() {
    for mut s in Version::ALL.map(|version| Station::fresh(version, 64)) {
        assert!((1..=64).all(|id| s.add(id, 1) == Ok(1)));
        assert_eq!(replace(&mut s, 64, &reviewed(64, b'R', 2)), Err(Refusal::NoSpace));
        assert_eq!(replace(&mut s, 64, &reviewed(64, b'R', 1)), Ok(0));
        assert_eq!(s.add(65, 1), Err(Refusal::FilesFull));
    }
}

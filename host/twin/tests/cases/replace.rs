//! A reviewed file takes the place of the raw one, on the twin, in every version.

use crate::case_6;
use crate::station::{bytes_of, content, Pair, Station};
use twin::{add, free, remove, replace, Answer, Version, BLOCK};

/// Pages of a file with a quality letter. At its end each page has it too, so that no page is one of another letter.
fn reviewed(id: u16, letter: u8, pages: usize) -> Vec<u8> {
    let mut content = content(id, pages);
    content.chunks_mut(BLOCK).for_each(|page| page[BLOCK - 1] = letter);
    content[6] = letter;
    content
}

/// Replaces a file. A refusal changes no byte.
fn replaced(station: &mut Station, id: u16, content: &[u8]) -> Answer {
    let before = (station.cat.clone(), station.disk.clone());
    let answer = replace(&mut station.cat, &mut station.disk, id, content);
    assert!(answer.is_ok() || (&station.cat, &station.disk) == (&before.0, &before.1), "a refused call changed a byte");
    answer
}

/// The removal is that of case 7: file 9 is copied from block 3 to block 7. Then the new file gets (0,2) and (6,1).
#[test]
fn what_a_removal_and_an_add_leave() {
    for version in Version::ALL {
        let mut six = case_6(version);
        assert_eq!(replaced(&mut six, 5, &reviewed(5, b'R', 14)), Err(11), "then nothing is copied");
        assert_eq!(replaced(&mut six, 5, &reviewed(5, b'R', 3)), Ok(1));
        let files: [(u16, &[Pair]); 3] = [(2, &[(4, 2)]), (5, &[(0, 2), (6, 1)]), (9, &[(7, 1)])];
        let six = six.has(&files, &[(2, 2), (8, 8)]);
        assert_eq!(six.pages(5, 3), reviewed(5, b'R', 3));
        assert_eq!((six.pages(9, 1), six.pages(2, 2)), (content(9, 1), content(2, 2)));
        assert_eq!(six.disk[2 * BLOCK..3 * BLOCK], content(5, 3)[2 * BLOCK..], "a block that got free keeps its bytes");
    }
}

/// On the disk of case 11, whose removal copies three blocks, by each new length.
#[test]
fn the_bytes_of_the_two_calls() {
    for version in Version::ALL {
        let files: [(u16, &[Pair]); 3] = [(1, &[(13, 1)]), (2, &[(0, 4), (4, 2), (6, 1)]), (3, &[(8, 4), (12, 1)])];
        let cat = bytes_of(version, 16, &files, &[(7, 1), (14, 2)]);
        let disk: Vec<u8> = (0..16).flat_map(|block| [block; BLOCK]).collect();
        for pages in 1..=4 {
            let content = reviewed(1, b'D', pages);
            let mut apart = (cat.clone(), disk.clone());
            let copied = remove(&mut apart.0, &mut apart.1, 1);
            assert_eq!((copied, add(&mut apart.0, &mut apart.1, 1, &content)), (Ok(3), Ok(pages as u64)));
            let mut whole = Station { version, cat: cat.clone(), disk: disk.clone() };
            assert_eq!(replaced(&mut whole, 1, &content), copied);
            assert!((whole.cat, whole.disk) == apart, "{pages} pages");
        }
        let mut full = Station { version, cat, disk };
        assert_eq!(replaced(&mut full, 1, &reviewed(1, b'D', 5)), Err(11));
    }
}

/// All letters over all others: 12 for a new one outside the four, 13 unless it ranks above the stored one.
#[test]
fn the_ranks_of_the_letters() {
    let letters = *b"RDQM";
    for (place, stored) in letters.into_iter().enumerate() {
        for (new_place, new) in letters.into_iter().enumerate() {
            let mut one = Station::fresh(Version::SMALL, 3);
            assert_eq!(add(&mut one.cat, &mut one.disk, 1, &reviewed(1, stored, 2)), Ok(2));
            let expected = if new_place > place { Ok(0) } else { Err(13) };
            assert_eq!(replaced(&mut one, 1, &reviewed(1, new, 3)), expected, "{new} over {stored}");
        }
    }
    for other in (0..=255).filter(|byte| !letters.contains(byte)) {
        for letter in letters {
            let mut one = Station::fresh(Version::LARGE, 3).with(1, 2);
            one.disk[6] = other;
            assert_eq!(replaced(&mut one, 1, &reviewed(1, letter, 3)), Ok(0), "{letter} over {other}");
            assert_eq!(replaced(&mut one, 1, &reviewed(1, other, 3)), Err(12), "{other}");
        }
    }
}

/// The first page is in the longest piece: here in block 4, while the first pair is block 0.
#[test]
fn the_stored_letter_is_that_of_the_longest_piece() {
    for version in Version::ALL {
        for (stored, answer) in [([b'M', b'M', b'D'], Ok(0)), ([b'R', b'R', b'Q'], Err(13))] {
            let cat = bytes_of(version, 8, &[(1, &[(0, 1), (2, 2), (4, 4)])], &[(1, 1)]);
            let mut one = Station { version, cat, disk: vec![7; 8 * BLOCK] };
            for (block, letter) in [0, 2, 4].into_iter().zip(stored) {
                one.disk[block * BLOCK + 6] = letter;
            }
            assert_eq!(replaced(&mut one, 1, &reviewed(1, b'Q', 8)), answer);
        }
    }
}

#[test]
fn the_order_of_the_refusals() {
    for version in Version::ALL {
        let mut six = case_6(version);
        assert_eq!(replaced(&mut six, 5, &reviewed(5, b'D', 3)), Ok(1));
        let long = b"XRDQ".map(|letter| replaced(&mut six, 5, &reviewed(5, letter, 14)));
        assert_eq!(long, [12, 13, 13, 11].map(Err));
        for length in [0, 6, 7, 511, 513] {
            let refused = [0, 4, 5].map(|id| replaced(&mut six, id, &reviewed(5, b'X', 2)[..length]));
            assert_eq!(refused, [5, 6, 8].map(Err), "{length} bytes");
        }
        assert_eq!(replace(&mut six.cat[1..], &mut six.disk[1..], 0, &[]), Err(1));
        assert_eq!(replace(&mut vec![0; version.catalogue], &mut six.disk[1..], 0, &[]), Err(3));
        assert_eq!(replace(&mut six.cat, &mut six.disk[1..], 0, &[]), Err(4));
        assert_eq!(replaced(&mut six, 5, &reviewed(5, b'Q', 13)), Ok(0), "all that is free, and all that it had");
        assert_eq!(free(&six.cat), Ok(0));
    }
}

#[test]
fn among_64_files_one_is_replaced() {
    for version in Version::ALL {
        let mut full = (1..=64).fold(Station::fresh(version, 65), |station, id| station.with(id, 1));
        assert_eq!(replaced(&mut full, 64, &reviewed(64, b'R', 3)), Err(11));
        assert_eq!(replaced(&mut full, 64, &reviewed(64, b'R', 2)), Ok(0));
        assert_eq!(full.pages(64, 2), reviewed(64, b'R', 2));
    }
}

//! A reviewed file takes the place of the raw one: the second implementation, and the book beside it.

use crate::common::{content, in_each_version, reviewed, Station};
use model::{add, carries, check, free, remove, replace, Book, Version, BLOCK};

/// Bytes that are no quality letter, among them neighbours of the letters, lower case and letters of other meanings.
const OTHERS: [u8; 12] = [0, b' ', b'C', b'E', b'L', b'N', b'P', b'S', b'd', b'm', b'r', 255];

/// A disk with its book.
struct Kept {
    station: Station,
    book: Book,
}

impl Kept {
    fn fresh(version: Version, blocks: u32) -> Kept {
        Kept { station: Station::fresh(version, blocks), book: Book::new(u64::from(blocks)) }
    }

    /// Adds a file of so many pages, with a quality letter.
    fn with(mut self, id: u16, letter: u8, pages: u32) -> Kept {
        let (content, station) = (reviewed(id, letter, pages), &mut self.station);
        assert_eq!(add(&mut station.cat, &mut station.disk, id, &content), Ok(u64::from(pages)));
        assert_eq!(self.book.add(id, &content), Ok(u64::from(pages)));
        self
    }

    /// The refusal that disk and book give alike, without a change; 0 if there is none.
    fn refusal(&mut self, id: u16, content: &[u8]) -> u8 {
        let (book, lines) = (self.book.clone(), self.book.replace(id, content));
        let answer = self.station.replace(id, content);
        assert_eq!(answer.map(drop), lines, "the book differs");
        assert!(lines.is_ok() || self.book == book, "a refused call changed the book");
        lines.err().unwrap_or(0)
    }
}

/// Whether each file reads as its line, and f is the book's.
fn holds(kept: &Kept) -> bool {
    let Station { cat, disk, .. } = &kept.station;
    let mut out = vec![];
    kept.book.lines().all(|(id, pages)| {
        out.resize(pages.len(), 0);
        model::read(cat, disk, id, 0, &mut out) == Ok((pages.len() / BLOCK) as u64) && out == pages
    }) && free(cat) == Ok(kept.book.free())
}

/// Each letter over each other: rows are stored letters, columns new ones.
#[test]
fn the_ranks_of_the_letters() {
    let rows: [(&[u8], [u8; 5]); 5] = [
        (b"R", [13, 0, 0, 0, 12]),
        (b"D", [13, 13, 0, 0, 12]),
        (b"Q", [13, 13, 13, 0, 12]),
        (b"M", [13, 13, 13, 13, 12]),
        (&OTHERS, [0, 0, 0, 0, 12]),
    ];
    in_each_version(|version| {
        for (stored, refusals) in rows {
            let columns: [&[u8]; 5] = [b"R", b"D", b"Q", b"M", &OTHERS];
            for (new, refusal) in columns.into_iter().zip(refusals) {
                for (&stored, &new) in stored.iter().flat_map(|stored| new.iter().map(move |new| (stored, new))) {
                    let mut kept = Kept::fresh(version, 5).with(7, stored, 2);
                    assert_eq!(kept.refusal(7, &reviewed(7, new, 3)), refusal, "{new} over {stored}");
                    assert!(holds(&kept));
                }
            }
        }
    });
}

/// Case 6, in which the removal of 5 is that of case 7: file 9 is copied from block 3 to block 7.
#[test]
fn what_a_removal_and_an_add_leave() {
    in_each_version(|version| {
        let mut kept = Kept::fresh(version, 16).with(5, b'R', 3).with(9, b'R', 1).with(2, b'R', 2);
        let content = reviewed(5, b'M', 3);
        assert_eq!(kept.refusal(5, &reviewed(5, b'M', 14)), 11, "then nothing is copied");
        assert_eq!((kept.station.replace(5, &content), carries(10, 3)), (Ok(1), 2));
        let files: &[_] = &[(2, 2, &[(4, 2)][..]), (5, 3, &[(0, 2), (6, 1)]), (9, 1, &[(7, 1)])];
        kept.station.lists(16, files, &[(2, 2), (8, 8)]);
        kept.book.replace(5, &content).expect("M ranks above R");
        assert!(holds(&kept));
        assert_eq!(kept.station.block(2), &reviewed(5, b'R', 3)[2 * BLOCK..], "a block that got free keeps its bytes");
        assert_eq!(kept.station.block(0), &content[..BLOCK]);
    });
}

/// On 2 to 9 blocks with two added files of any lengths, with every new length.
#[test]
fn the_bytes_of_the_two_calls() {
    in_each_version(|version| {
        for (blocks, a, b) in (2..=9).flat_map(|c| (1..c).flat_map(move |a| (1..=c - a).map(move |b| (c, a, b)))) {
            let filled = || Kept::fresh(version, blocks).with(4, b'D', a).with(2, b'D', b);
            for (id, old) in [(4, a), (2, b)] {
                let most = blocks - a - b + old;
                for n in 1..=most {
                    let (mut kept, content) = (filled(), reviewed(id, b'Q', n));
                    let Station { mut cat, mut disk, .. } = filled().station;
                    let copied = remove(&mut cat, &mut disk, id).expect("it is there");
                    assert_eq!(add(&mut cat, &mut disk, id, &content), Ok(u64::from(n)));
                    assert_eq!(kept.station.replace(id, &content), Ok(copied));
                    assert!(copied <= carries(u64::from(blocks - a - b), u64::from(old)));
                    assert!((&kept.station.cat, &kept.station.disk) == (&cat, &disk), "{blocks} {a} {b} {n}");
                }
                assert_eq!(filled().refusal(id, &reviewed(id, b'Q', most)), 0, "as much as fits");
                assert_eq!(filled().refusal(id, &reviewed(id, b'Q', most + 1)), 11, "a block more");
            }
        }
    });
}

/// Page 0 is in the longest piece, and here that is not the first pair.
#[test]
fn the_stored_letter_is_in_the_longest_piece() {
    in_each_version(|version| {
        for (letters, refusal) in [([b'M', b'M', b'D'], Ok(0)), ([b'R', b'R', b'Q'], Err(13))] {
            let files: &[_] = &[(1, 7, &[(0, 1), (2, 2), (4, 4)][..])];
            let mut station = Station::laid_out(version, 8, files, &[(1, 1)]);
            for (block, letter) in [0, 2, 4].into_iter().zip(letters) {
                station.disk[block * BLOCK + 6] = letter;
            }
            assert_eq!(station.replace(1, &reviewed(1, b'Q', 8)), refusal);
        }
    });
}

#[test]
fn among_64_files_one_is_replaced() {
    in_each_version(|version| {
        let mut kept = (1..=64).fold(Kept::fresh(version, 66), |kept, id| kept.with(id, b'D', 1));
        assert_eq!(kept.refusal(64, &reviewed(64, b'M', 4)), 11);
        assert_eq!(kept.refusal(64, &reviewed(64, b'M', 3)), 0, "two free blocks, and its own");
        assert_eq!(kept.refusal(1, &reviewed(1, b'Q', 1)), 0, "nothing is free");
        assert_eq!(kept.refusal(65, &reviewed(65, b'Q', 1)), 6);
        assert_eq!(check(&kept.station.cat, &kept.station.disk), Ok(66));
        assert!(holds(&kept));
    });
}

/// All conditions from some number on hold at once, and the first is given: 1, 3, 4, 5, 6, 8, 12, 13, 11.
#[test]
fn the_order_of_the_refusals() {
    in_each_version(|version| {
        let mut kept = Kept::fresh(version, 4).with(3, b'Q', 2);
        for length in [0, 6, 7, 511, 513] {
            for letter in *b"XRM" {
                let content = &reviewed(3, letter, 2)[..length];
                assert_eq!([0, 4, 3].map(|id| kept.refusal(id, content)), [5, 6, 8], "{length} bytes");
            }
        }
        let long = [b'X', b'R', b'Q', b'M'].map(|letter| kept.refusal(3, &reviewed(3, letter, 5)));
        assert_eq!(long, [12, 13, 13, 11]);
        assert_eq!(kept.refusal(4, &reviewed(4, b'X', 5)), 6);
        let Station { mut cat, mut disk, .. } = kept.station;
        let before = (cat.clone(), disk.clone());
        assert_eq!(replace(&mut cat[1..], &mut disk[1..], 0, &[]), Err(1));
        assert_eq!(replace(&mut vec![0; version.catalogue], &mut disk[1..], 0, &[]), Err(3));
        assert_eq!(replace(&mut cat, &mut disk[1..], 0, &[]), Err(4));
        assert_eq!(replace(&mut cat, &mut disk[1..], 3, &content(3, 5)), Err(4));
        assert_eq!((cat, disk), before);
    });
}

/// A file may be replaced by one as long, by a shorter and by a longer one, with rising letters.
#[test]
fn one_file_again_and_again() {
    in_each_version(|version| {
        let mut kept = Kept::fresh(version, 261).with(1, b'?', 100).with(2, b'?', 31);
        for (letter, pages) in [(b'R', 100), (b'D', 7), (b'Q', 230), (b'M', 255)] {
            assert_eq!(kept.refusal(1, &reviewed(1, letter, pages)), if pages == 255 { 11 } else { 0 });
            assert!(holds(&kept));
        }
        assert_eq!(kept.refusal(1, &reviewed(1, b'M', 1)), 0);
        assert_eq!(model::breaks(&kept.station.cat, 1), Ok(0));
    });
}

//! The instruments at lists of removals: that they see what is wrong.

use std::collections::BTreeSet;

use model::{Answer, Version, BLOCK, FITS_ALREADY, MOST_FILES};

use crate::both::Difference;
use crate::call::{Call, Lent};
use crate::guarded::Guarded;
use crate::history::{History, MOST_WHOLE};
use crate::numbers::Numbers;
use crate::tally::Tally;
use crate::watch::{follow, has_ids};

fn which(n: u64) -> Call {
    Call::Which { n, places: MOST_FILES }
}

fn step(history: &mut History, call: Call) -> Result<Answer, Difference> {
    let right = history.right();
    history.step(&call, right, 1, &mut Tally::default())
}

/// A disk with files of these ids and blocks.
fn disk(version: Version, blocks: usize, files: &[(u16, usize)]) -> History {
    let mut history = History::new(version, blocks, &mut Numbers::from_seed(1));
    step(&mut history, Call::Format).expect("no difference").expect("an answer");
    for &(id, n) in files {
        let add = Call::Add { id, length: n * BLOCK, letter: b'D' };
        step(&mut history, add).expect("no difference").expect("an answer");
    }
    history
}

/// Case 6 of the scope document.
fn case_6(version: Version) -> History {
    disk(version, 16, &[(5, 3), (9, 1), (2, 2)])
}

/// The answer for n, and the start of the list.
fn asked(history: &mut History, n: u64) -> (Answer, [u16; 4]) {
    let answer = step(history, which(n)).expect("no difference");
    (answer, *history.both.list(MOST_FILES).first_chunk().expect("the list has more places"))
}

#[test]
fn the_lists_of_a_history() {
    for version in Version::ALL {
        let history = &mut case_6(version);
        assert_eq!(asked(history, 10), (Ok(FITS_ALREADY), [0; 4]));
        assert_eq!(asked(history, 11), (Ok(3), [2, 9, 5, 0]));
        assert_eq!(asked(history, 13), (Ok(1), [5, 0, 0, 0]));
        assert_eq!(asked(history, 14), (Ok(0), [0; 4]));
        assert_eq!(step(history, which(0)), Ok(Err(8)));
        for places in [0, MOST_FILES - 1, MOST_FILES + 1] {
            assert_eq!(step(history, Call::Which { n: 11, places }), Ok(Err(14)));
        }
    }
}

/// The disk is not lent to the call, so that its length is of no account.
#[test]
fn the_catalogue_alone_is_lent() {
    let mut history = case_6(Version::SMALL);
    let (right, tally) = (history.right(), &mut Tally::default());
    let lent = |cat: usize, disk: usize| Lent { cat, disk };
    for (lent, answer) in [
        (lent(right.cat, 0), Ok(3)),
        (lent(right.cat, right.disk + 1), Ok(3)),
        (lent(right.cat - 1, right.disk), Err(1)),
        (lent(Version::LARGE.catalogue, right.disk), Err(3)),
    ] {
        assert_eq!(history.step(&which(11), lent, 1, tally), Ok(answer), "{lent}");
    }
    assert_eq!(history.step_spoilt(&which(0), &vec![0; right.cat], tally), Ok(Err(3)));
}

#[test]
fn the_book_sees_a_wrong_answer() {
    let mut history = case_6(Version::SMALL);
    for (n, right) in [(10, Ok(FITS_ALREADY)), (11, Ok(3)), (13, Ok(1)), (14, Ok(0)), (0, Err(8))] {
        assert_eq!(step(&mut history, which(n)), Ok(right));
        for answer in [Ok(FITS_ALREADY), Ok(0), Ok(1), Ok(2), Ok(3), Ok(64), Err(8), Err(11), Err(14)] {
            let followed = follow(&mut history.book, &which(n), &[], &history.both, answer);
            assert_eq!(followed.is_ok(), answer == right, "{n}: {answer:?}");
        }
    }
}

/// The list of the last call was made for other lines than the book has.
#[test]
fn the_book_sees_other_ids() {
    let mut history = case_6(Version::SMALL);
    let mut book = history.book.clone();
    book.remove(9).expect("it is there");
    book.add(8, &[0; BLOCK]).expect("there is space");
    assert_eq!(step(&mut history, which(11)), Ok(Ok(3)));
    assert!(follow(&mut book, &which(11), &[], &history.both, Ok(3)).is_err());
    assert_eq!(step(&mut history, which(12)), Ok(Ok(2)));
    assert_eq!(follow(&mut book, &which(12), &[], &history.both, Ok(2)), Ok(()));
}

#[test]
fn ids_in_any_order_and_then_zeros() {
    let ids = BTreeSet::from([2, 5, 9]);
    assert!(has_ids(&[9, 2, 5, 0], &ids) && has_ids(&[2, 5, 9], &ids));
    for list in [[2, 5, 0, 0], [2, 5, 5, 0], [2, 5, 9, 9], [0, 2, 5, 9], [2, 5, 8, 0]] {
        assert!(!has_ids(&list, &ids), "{list:?}");
    }
}

/// A place of the list, or of its guards, that was written though the call was refused.
#[test]
fn a_written_place_is_seen() {
    let mut list = Guarded::of(7u16, MOST_FILES);
    assert!(list.has_only(7));
    for place in 0..list.items.len() {
        list.items[place] = 0;
        assert!(!list.has_only(7), "{place}");
        list.items[place] = 7;
    }
}

/// On a long disk the list is that of the removals too.
#[test]
fn the_list_of_a_long_disk() {
    let filled = || disk(Version::LARGE, 2 * MOST_WHOLE, &[(1, 64), (2, 32), (3, 64)]);
    let removed = [3, 1, 2].map(|id| step(&mut filled(), Call::Remove { id }));
    assert_eq!(removed, [Ok(Ok(0)), Ok(Ok(32)), Ok(Ok(64))]);
    assert_eq!(asked(&mut filled(), 2 * MOST_WHOLE as u64 - 159), (Ok(3), [3, 1, 2, 0]));
}

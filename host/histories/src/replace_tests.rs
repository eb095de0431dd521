//! The instruments at replacements: that they see what is wrong.

use model::{Answer, Book, Version, BLOCK};

use crate::both::Difference;
use crate::call::{stamp, Call};
use crate::history::{History, MOST_WHOLE};
use crate::letters;
use crate::numbers::Numbers;
use crate::tally::Tally;
use crate::watch::follow;

fn replace(id: u16, pages: usize, letter: u8) -> Call {
    Call::Replace { id, length: pages * BLOCK, letter }
}

fn step(history: &mut History, call: Call) -> Result<Answer, Difference> {
    let right = history.right();
    history.step(&call, right, 1, &mut Tally::default())
}

/// A disk with files of these ids and blocks, each with the letter D.
fn disk(blocks: usize, files: &[(u16, usize)]) -> History {
    let mut history = History::new(Version::LARGE, blocks, &mut Numbers::from_seed(1));
    step(&mut history, Call::Format).expect("no difference").expect("an answer");
    for &(id, n) in files {
        let add = Call::Add { id, length: n * BLOCK, letter: b'D' };
        step(&mut history, add).expect("no difference").expect("an answer");
    }
    history
}

#[test]
fn the_book_sees_a_wrong_answer() {
    let history = disk(5, &[(3, 3)]);
    let mut content = Vec::new();
    for (call, right) in [
        (replace(3, 5, b'Q'), Ok(0)),
        (replace(3, 6, b'Q'), Err(11)),
        (replace(3, 6, b'C'), Err(12)),
        (replace(3, 6, b'D'), Err(13)),
        (replace(4, 6, b'D'), Err(6)),
    ] {
        call.stamp(&mut content, 1);
        for answer in [Ok(0), Err(6), Err(8), Err(10), Err(11), Err(12), Err(13)] {
            let followed = follow(&mut history.book.clone(), &call, &content, &history.both, answer);
            assert_eq!(followed.is_ok(), answer == right, "{call}: {answer:?}");
        }
    }
}

/// The line of the book is the new one, with its letter and its length.
#[test]
fn the_book_follows_a_replacement() {
    let mut history = disk(9, &[(3, 3), (4, 1)]);
    assert_eq!(step(&mut history, replace(3, 5, b'Q')), Ok(Ok(1)));
    assert_eq!((history.book.pages(3), history.book.free()), (5, 3));
    assert_eq!(step(&mut history, replace(3, 1, b'Q')), Ok(Err(13)));
    assert_eq!(step(&mut history, replace(3, 9, b'M')), Ok(Err(11)));
    assert_eq!(step(&mut history, replace(3, 8, b'M')), Ok(Ok(0)));
    assert_eq!(history.book.free(), 0);
}

/// Of a long disk a wrong block is found at a replacement that moves it, that writes a new page beside it, or that
/// would move it if it were not refused.
#[test]
fn a_wrong_block_at_the_touched_ones_is_found_at_once() {
    let files = [(1, 64), (2, 32), (3, 64)];
    let mut history = disk(2 * MOST_WHOLE, &files);
    assert_eq!(step(&mut history, replace(1, 512, b'Q')), Ok(Ok(32)));
    let moved = history.both.merges().moves().next().expect("a buddy moves").clone();
    let catalogue = model::sound(history.both.catalogue()).expect("it is sound");
    let new = catalogue.entry(1).expect("it is there").pairs[0].blocks();
    let far = moved.from.start - 600;
    for (call, answer) in [(replace(1, 512, b'Q'), Ok(32)), (replace(1, 512, b'D'), Err(13))] {
        let placed = answer.is_ok();
        let blocks = [(moved.from.start + 40, true), (moved.to.end - 1, true), (new.start - 1, placed), (far, false)];
        for (block, found) in blocks {
            let mut history = disk(2 * MOST_WHOLE, &files);
            history.both.change_proved(block);
            let step = step(&mut history, call);
            assert_eq!(step.is_err(), found, "{call}, block {block}");
            assert!(found || step == Ok(answer));
        }
    }
}

/// The letters that are chosen as higher ones are those with which the book replaces.
#[test]
fn letters_above() {
    let (mut old, mut new) = (Vec::new(), Vec::new());
    for stored in 0..=255 {
        stamp(&mut old, 1, 3, 2 * BLOCK, stored);
        let mut book = Book::new(4);
        book.add(3, &old).expect("there is space");
        for letter in 0..=255 {
            stamp(&mut new, 2, 3, BLOCK, letter);
            let replaced = book.clone().replace(3, &new).is_ok();
            assert_eq!(replaced, letters::above(&old).contains(&letter), "{letter} over {stored}");
        }
    }
}

#[test]
fn the_first_page_has_the_letter() {
    let mut content = Vec::new();
    for length in [0, 6, 7, BLOCK, BLOCK + 6, 40 * BLOCK] {
        stamp(&mut content, 5, 9, length, b'?');
        assert_eq!(content.len(), length);
        assert_eq!(content.get(letters::PLACE), (length > 6).then_some(&b'?'));
    }
    let later: Vec<u8> = content.chunks(BLOCK).skip(1).map(|page| page[letters::PLACE]).collect();
    assert!(letters::RANKED.iter().all(|letter| later.contains(letter)), "{later:?}");
}

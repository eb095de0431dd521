//! The instruments themselves: that they see what is wrong, and that a seed fixes a run.

use model::{sound, write, Answer, Book, Catalogue, Move, Version, BLOCK};

use crate::both::Difference;
use crate::call::{stamp, Call, Lent};
use crate::history::{History, MOST_WHOLE};
use crate::long::List;
use crate::numbers::Numbers;
use crate::tally::Tally;
use crate::touched::ROUND;
use crate::watch::{compare_state, follow};

/// A disk with id 3 of 3 blocks: on 5 blocks it is at (0,2) (4,1).
fn history(version: Version, blocks: usize) -> History {
    let mut history = History::new(version, blocks, &mut Numbers::from_seed(1));
    for call in [Call::Format, Call::Add { id: 3, length: 3 * BLOCK, letter: b'R' }] {
        assert!(step(&mut history, call).expect("no difference").is_ok());
    }
    history
}

fn step(history: &mut History, call: Call) -> Result<Answer, Difference> {
    let right = history.right();
    history.step(&call, right, 1, &mut Tally::default())
}

/// The bytes of a catalogue in a buffer of its version.
pub fn bytes(catalogue: &Catalogue) -> Vec<u8> {
    let mut bytes = vec![0; catalogue.version.catalogue];
    write(catalogue, &mut bytes);
    bytes
}

#[test]
fn the_book_sees_a_wrong_page() {
    for version in Version::ALL {
        let mut history = history(version, 5);
        assert_eq!(compare_state(&history.book, &history.both), Ok(()));
        for (block, held) in [true, true, false, false, true].into_iter().enumerate() {
            let before = history.both.disk(5).to_vec();
            let mut disk = before.clone();
            disk[block * BLOCK + 511] ^= 1;
            history.both.set_disk(&disk);
            assert_eq!(compare_state(&history.book, &history.both).is_err(), held, "block {block}");
            history.both.set_disk(&before);
        }
    }
}

#[test]
fn the_book_sees_a_wrong_catalogue() {
    for version in Version::ALL {
        let mut history = history(version, 5);
        let right = sound(history.both.catalogue()).expect("it is sound");
        let mut other_id = right.clone();
        other_id.entries[0].id = 4;
        let mut swapped = right.clone();
        std::mem::swap(&mut swapped.entries[0].pairs[0], &mut swapped.free[0]);
        for wrong in [other_id, swapped, model::BlockMap::fresh(version, 5).catalogue()] {
            history.both.set_catalogue(&bytes(&wrong));
            assert!(sound(&bytes(&wrong)).is_some() && compare_state(&history.book, &history.both).is_err());
        }
        history.both.set_catalogue(&bytes(&right));
        assert_eq!(compare_state(&history.book, &history.both), Ok(()));
    }
}

#[test]
fn the_book_sees_a_wrong_answer() {
    let mut history = history(Version::SMALL, 5);
    let book = &mut history.book;
    assert_eq!(follow(book, &Call::Free, &[], &history.both, Ok(2)), Ok(()));
    for answer in [Ok(3), Err(2)] {
        assert!(follow(book, &Call::Free, &[], &history.both, answer).is_err());
        assert!(follow(book, &Call::Breaks { id: 3 }, &[], &history.both, answer).is_err());
        assert!(follow(&mut book.clone(), &Call::Remove { id: 3 }, &[], &history.both, Err(6)).is_err());
        assert!(follow(&mut Book::new(9), &Call::Remove { id: 3 }, &[], &history.both, answer).is_err());
    }
}

/// A block that differs where it should not is found at once on a disk that is compared whole, and on a longer one
/// within one round, or by the comparison of all bytes.
#[test]
fn a_stray_block_is_found() {
    for (blocks, at_once) in [(MOST_WHOLE, true), (MOST_WHOLE + 1, false)] {
        let mut history = history(Version::LARGE, blocks);
        assert_eq!(history.compare_whole(), Ok(()));
        history.both.change_proved(blocks - 1);
        assert!(history.compare_whole().is_err());
        let calls = (1..=ROUND + 1).find(|_| step(&mut history, Call::Free).is_err()).expect("it is found");
        assert_eq!(calls == 1, at_once, "found at call {calls} on {blocks} blocks");
    }
}

/// A disk that is not compared whole, with files of these ids and blocks.
fn long_disk(files: &[(u16, usize)]) -> History {
    let mut history = History::new(Version::LARGE, 2 * MOST_WHOLE, &mut Numbers::from_seed(1));
    step(&mut history, Call::Format).expect("no difference").expect("an answer");
    for &(id, n) in files {
        step(&mut history, Call::Add { id, length: n * BLOCK, letter: b'R' })
            .expect("no difference")
            .expect("an answer");
    }
    history
}

/// Of a long disk, a wrong block that a call touches, or one beside it, is found at that call.
#[test]
fn a_wrong_block_at_the_touched_ones_is_found_at_once() {
    let one = long_disk(&[(1, 1)]);
    let first = sound(one.both.catalogue()).expect("it is sound").entries[0].pairs[0].first as usize;
    // The second file goes to the block after the first one's.
    for (block, found) in [(first - 1, false), (first, true), (first + 2, true), (first + 3, false)] {
        let mut history = long_disk(&[(1, 1)]);
        history.both.change_proved(block);
        assert_eq!(
            step(&mut history, Call::Add { id: 2, length: BLOCK, letter: b'R' }).is_err(),
            found,
            "block {block}"
        );
    }
    // The removal copies the second file's page to the block after the third one's.
    for (block, found) in [(first - 2, false), (first + 1, true), (first + 4, true), (first + 5, false)] {
        let mut history = long_disk(&[(1, 1), (2, 1), (3, 1)]);
        history.both.change_proved(block);
        assert_eq!(step(&mut history, Call::Remove { id: 1 }).is_err(), found, "block {block}");
    }
}

/// The free blocks of a buddy that moves, and of the section that it moves to, are touched ones too.
#[test]
fn a_wrong_free_block_of_a_move_is_found_at_once() {
    let half_free = || long_disk(&[(1, 64), (2, 32), (3, 64)]);
    let mut history = half_free();
    assert_eq!(step(&mut history, Call::Remove { id: 1 }), Ok(Ok(32)));
    let moves: Vec<&Move> = history.both.merges().moves().collect();
    let [Move { from, to, copies }] = moves[..] else { panic!("one buddy moves") };
    assert_eq!((from.len(), copies.last()), (64, Some(&(from.start + 31, to.start + 31))));
    for (block, found) in [(from.start + 40, true), (to.start + 40, true), (to.end - 1, true), (from.start - 2, false)]
    {
        let mut history = half_free();
        history.both.change_proved(block);
        assert_eq!(step(&mut history, Call::Remove { id: 1 }).is_err(), found, "block {block}");
    }
}

/// The length of a list is in calls that the book follows, answered or refused.
#[test]
fn a_list_is_as_long_as_the_book_follows() {
    let mut history = history(Version::SMALL, 5);
    assert_eq!(history.followed, 1);
    assert_eq!(step(&mut history, Call::Remove { id: 4 }), Ok(Err(6)));
    assert_eq!(history.followed, 2);
    let short = Lent { disk: 4 * BLOCK, ..history.right() };
    assert_eq!(history.step(&Call::Check, short, 1, &mut Tally::default()), Ok(Err(4)));
    let spoilt = vec![0; Version::SMALL.catalogue];
    assert_eq!(history.step_spoilt(&Call::Free, &spoilt, &mut Tally::default()), Ok(Err(3)));
    assert_eq!((step(&mut history, Call::Free), history.followed), (Ok(Ok(2)), 3));
    assert_eq!((step(&mut history, Call::Format), history.followed), (Ok(Ok(5)), 0));
}

/// In one stretch of a long list on 261 blocks everything is seen, in each version; 64 files never are on 16 blocks.
#[test]
fn a_long_list_without_an_event_is_told() {
    for version in Version::ALL {
        let mut numbers = Numbers::from_seed(2);
        let mut list = List::new(version, 261, &mut numbers);
        assert_eq!(list.run(5000, 5000, &mut numbers), Ok(()));
        assert!((5000..5400).contains(&list.history.followed));
        let told = List::new(version, 16, &mut numbers).run(5000, 5000, &mut numbers).expect_err("16 files at most");
        assert_eq!(
            told,
            "never seen from call 0 of the list on: refusal 10, the 64th file added, one of 64 files replaced, \
             all of 64 files listed"
        );
    }
}

#[test]
fn pages_of_all_calls_ids_and_numbers_differ() {
    let mut content = Vec::new();
    let mut seen = std::collections::HashSet::new();
    for (call, id) in [(0, 1), (0, 65_535), (1, 1), (1, 2), (200_000, 1)] {
        stamp(&mut content, call, id, 70_000 * BLOCK, b'D');
        assert!(content.chunks(BLOCK).all(|page| seen.insert(page[8..16].to_vec())), "call {call}, id {id}");
    }
}

#[test]
fn a_seed_fixes_the_numbers() {
    let numbers = |seed| {
        let mut numbers = Numbers::from_seed(seed);
        [numbers.next(), numbers.within(3, 9) as u64, numbers.next()]
    };
    assert_eq!(numbers(7), numbers(7));
    assert_ne!(numbers(7), numbers(8));
}

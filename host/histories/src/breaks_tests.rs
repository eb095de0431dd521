//! The instruments at breaks: that they see what is wrong.

use model::{Answer, Version, BLOCK};

use crate::both::Difference;
use crate::call::{Call, Lent};
use crate::history::History;
use crate::numbers::Numbers;
use crate::tally::Tally;
use crate::watch::follow;

fn step(history: &mut History, call: Call, tally: &mut Tally) -> Result<Answer, Difference> {
    let right = history.right();
    history.step(&call, right, 1, tally)
}

/// A disk of 16 blocks with id 5 at (0,2) (2,1), id 6 at (4,2) (3,1), id 8 at (6,1) and id 7 at (8,4) (12,2) (7,1).
fn four_files(version: Version) -> History {
    let mut history = History::new(version, 16, &mut Numbers::from_seed(1));
    let adds = [(5, 3), (6, 3), (8, 1), (7, 7)].map(|(id, n)| Call::Add { id, length: n * BLOCK, letter: b'D' });
    for call in [Call::Format].into_iter().chain(adds) {
        step(&mut history, call, &mut Tally::default()).expect("no difference").expect("an answer");
    }
    history
}

/// The answers of a history, and what is counted of them and has to be seen: id 8 has one piece and no limit to meet.
#[test]
fn the_breaks_of_a_history() {
    for version in Version::ALL {
        let (mut history, mut tally) = (four_files(version), Tally::default());
        let answers = [5, 6, 7, 8].map(|id| step(&mut history, Call::Breaks { id }, &mut tally));
        assert_eq!(answers, [Ok(Ok(0)), Ok(Ok(1)), Ok(Ok(1)), Ok(Ok(0))]);
        assert_eq!([tally.breaks.fewer(), tally.breaks.most], [2, 1]);
        let events = tally.events();
        for (what, times) in [("fewer breaks than its limit", 2), ("as many breaks as its limit", 1)] {
            assert!(events.contains(&(format!("a file with {what}"), times)), "{events:?}");
        }
    }
}

/// The number is not the book's, but it has a limit, and that there is one is the book's.
#[test]
fn the_book_sees_an_answer_past_the_limit() {
    let mut history = four_files(Version::SMALL);
    for (id, limit) in [(5, 1), (6, 1), (7, 2), (8, 0)] {
        for answer in (0..5).map(Ok).chain([Err(5), Err(6)]) {
            let followed = follow(&mut history.book, &Call::Breaks { id }, &[], &history.both, answer);
            assert_eq!(followed.is_ok(), answer.is_ok_and(|breaks| breaks <= limit), "{id}: {answer:?}");
        }
    }
    for (id, refusal) in [(0, 5), (9, 6)] {
        for answer in [Ok(0), Ok(1), Err(5), Err(6)] {
            let followed = follow(&mut history.book, &Call::Breaks { id }, &[], &history.both, answer);
            assert_eq!(followed.is_ok(), answer == Err(refusal), "{id}: {answer:?}");
        }
    }
}

/// The disk is not lent to the call, so that its length is of no account.
#[test]
fn the_catalogue_alone_is_lent() {
    let mut history = four_files(Version::SMALL);
    let (right, tally) = (history.right(), &mut Tally::default());
    for (cat, disk, answer) in [
        (right.cat, 0, Ok(1)),
        (right.cat, right.disk + 1, Ok(1)),
        (right.cat - 1, right.disk, Err(1)),
        (Version::LARGE.catalogue, right.disk, Err(3)),
    ] {
        assert_eq!(history.step(&Call::Breaks { id: 6 }, Lent { cat, disk }, 1, tally), Ok(answer), "{cat} {disk}");
    }
}

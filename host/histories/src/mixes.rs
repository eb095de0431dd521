//! Which call comes next in a random history.

use model::{Book, BLOCK, MOST_FILES};

use crate::call::Call;
use crate::history::{History, MOST_WHOLE};
use crate::letters;
use crate::numbers::Numbers;

/// What a history is rich in.
#[derive(Clone, Copy, Debug)]
pub enum Mix {
    /// Many small events that come and go.
    Swarm,
    /// Files that fill the disk to its last block.
    Full,
    /// 64 files, and attempts at more. A file that leaves no space for others goes soon.
    Many,
    /// Any lengths.
    Any,
    /// Removals that move as many blocks as can be, held and free.
    Moves,
    /// Files of as many pieces as their blocks can have, or nearly.
    Pieces,
    /// More removals than adds, until the disk has no file.
    Empty,
}

/// Those of short lists, which begin with no file anyway.
pub const MIXES: [Mix; 6] = [Mix::Swarm, Mix::Full, Mix::Many, Mix::Any, Mix::Moves, Mix::Pieces];

/// The ids that a history uses: few enough to meet again, with those at the ends.
pub fn ids(numbers: &mut Numbers) -> Vec<u16> {
    let mut ids = vec![1, 2, 255, 256, 65_535];
    ids.extend((0..75).map(|_| numbers.field().max(1)));
    ids
}

/// The ids of the lines.
pub fn held(book: &Book) -> Vec<u16> {
    book.lines().map(|(id, _)| id).collect()
}

/// A call that mostly is answered.
pub fn next_call(mix: Mix, ids: &[u16], history: &History, numbers: &mut Numbers) -> Call {
    let held = held(&history.book);
    if held.is_empty() {
        return next_add(mix, ids, &history.book, numbers);
    }
    if numbers.one_in(6) {
        return next_look(&held, &history.book, numbers);
    }
    let filling = matches!(mix, Mix::Many) && held.len() < MOST_FILES;
    if numbers.one_in(if filling { 15 } else { 5 }) {
        return next_replacement(mix, &held, history, numbers);
    }
    if filling && numbers.one_in(2) && history.book.free() <= history.book.check() / MOST_FILES as u64 {
        return Call::Remove { id: longest(&history.book) };
    }
    let adds = match mix {
        _ if filling => 90,
        Mix::Full if history.book.free() > 0 => 70,
        Mix::Empty => 15,
        _ if history.book.free() == 0 => 10,
        _ => 50,
    };
    if numbers.within(1, 100) <= adds {
        return next_add(mix, ids, &history.book, numbers);
    }
    Call::Remove { id: next_removal(mix, &held, history, numbers) }
}

/// The id of a longest line. There is a line.
fn longest(book: &Book) -> u16 {
    book.lines().max_by_key(|(_, pages)| pages.len()).map_or(0, |(id, _)| id)
}

fn next_add(mix: Mix, ids: &[u16], book: &Book, numbers: &mut Numbers) -> Call {
    let n = next_length(mix, book, book.free() as usize, numbers);
    Call::Add { id: next_id(ids, book, numbers), length: n * BLOCK, letter: letters::low(numbers) }
}

/// The blocks of a new file, where so many are free for it.
fn next_length(mix: Mix, book: &Book, f: usize, numbers: &mut Numbers) -> usize {
    let blocks = book.check() as usize;
    match mix {
        Mix::Swarm => numbers.within(1, 4),
        Mix::Many => numbers.within(1, 1 + blocks / MOST_FILES),
        Mix::Full if numbers.one_in(3) => f.max(1),
        Mix::Full | Mix::Moves | Mix::Empty => numbers.within(1, 1 + f / 2),
        Mix::Any => numbers.within(1, blocks + 1),
        Mix::Pieces => many_ones(f.max(1), numbers),
    }
}

/// Mostly with a letter above the stored one. It is as long as an add, with the file's own blocks free, or as long as
/// the file, as long as fits, or a block more. With many files none may take all that is free.
fn next_replacement(mix: Mix, held: &[u16], history: &History, numbers: &mut Numbers) -> Call {
    let book = &history.book;
    let lines = book.lines().filter(|(_, pages)| !letters::above(pages).is_empty());
    let replaceable: Vec<u16> = lines.map(|(id, _)| id).collect();
    let from = if replaceable.is_empty() { held } else { &replaceable };
    let id = next_removal(mix, from, history, numbers);
    let n = book.pages(id) as usize;
    let most = book.free() as usize + n;
    let pages = match numbers.within(0, 19) {
        0..=4 => n,
        5..=6 if !matches!(mix, Mix::Many | Mix::Swarm) => most,
        7 => most + 1,
        _ => next_length(mix, book, most, numbers),
    };
    let above = book.lines().find(|line| line.0 == id).map_or(&[][..], |(_, pages)| letters::above(pages));
    let letter = if above.is_empty() || numbers.one_in(10) { letters::any(numbers) } else { numbers.pick(above) };
    Call::Replace { id, length: pages * BLOCK, letter }
}

/// A number up to the double of some blocks, whose binary digits are all ones, or all but one.
fn many_ones(blocks: usize, numbers: &mut Numbers) -> usize {
    let places = numbers.within(1, blocks.ilog2() as usize + 1);
    let ones = (1 << places) - 1;
    if numbers.one_in(2) {
        return ones;
    }
    (ones ^ 1 << numbers.within(0, places - 1)).max(1)
}

/// An id for a new file: mostly one that no line has.
fn next_id(ids: &[u16], book: &Book, numbers: &mut Numbers) -> u16 {
    let unheld: Vec<u16> = ids.iter().copied().filter(|&id| book.pages(id) == 0).collect();
    if unheld.is_empty() || numbers.one_in(20) {
        numbers.pick(ids)
    } else {
        numbers.pick(&unheld)
    }
}

/// The file to remove: any, or the one for which the buddies that move have most blocks.
fn next_removal(mix: Mix, held: &[u16], history: &History, numbers: &mut Numbers) -> u16 {
    let (cat, disk) = (history.both.catalogue(), history.both.disk(history.blocks));
    let moves = |id: &u16| model::removal_moves(cat, disk, *id).unwrap_or_default();
    let moved = |id: &u16| moves(id).iter().map(|moved| moved.from.len()).sum::<usize>();
    match mix {
        Mix::Moves if history.blocks <= 600 || history.blocks <= MOST_WHOLE && numbers.one_in(8) => {
            *held.iter().max_by_key(|id| moved(id)).expect("a file is there")
        }
        Mix::Moves if history.blocks > MOST_WHOLE => {
            let some = [0; 3].map(|_| numbers.pick(held));
            some.into_iter().max_by_key(moved).expect("there are three")
        }
        _ => numbers.pick(held),
    }
}

fn next_look(held: &[u16], book: &Book, numbers: &mut Numbers) -> Call {
    let id = numbers.pick(held);
    match numbers.within(0, 7) {
        0 => Call::Free,
        1 => Call::Check,
        2 => Call::Breaks { id },
        3..=4 => next_which(id, book, numbers),
        _ => {
            let n = book.pages(id) as usize;
            let first = if numbers.one_in(3) { 0 } else { numbers.within(0, n - 1) };
            let most = if numbers.one_in(8) { n - first } else { (n - first).min(40) };
            Call::Read { id, first: first as u64, length: numbers.within(1, most) * BLOCK }
        }
    }
}

/// For as many blocks as fit already, or as each file suffices for, or as this one just does, or just does not, or as
/// no file does, or for any.
fn next_which(id: u16, book: &Book, numbers: &mut Numbers) -> Call {
    let (f, n, blocks) = (book.free(), book.pages(id), book.check());
    let n = match numbers.within(0, 9) {
        0 => f.max(1),
        1..=4 => f + 1,
        5..=6 => f + n,
        7 => f + n + 1,
        8 => blocks + 1,
        _ => numbers.within(1, blocks as usize) as u64,
    };
    Call::Which { n, places: MOST_FILES }
}

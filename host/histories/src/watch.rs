//! The book beside the manager: what the one claim about the whole list of calls says at each call.

use std::collections::BTreeSet;

use model::{Answer, Book, Entry, Pair, BLOCK, FITS_ALREADY};

use crate::both::{told, Both, Difference};
use crate::breaks::compare_limits;
use crate::call::Call;
use crate::fewest::compare_fewest;

/// What has to hold, or how it does not.
pub fn require(holds: bool, otherwise: impl FnOnce() -> String) -> Result<(), Difference> {
    if holds {
        Ok(())
    } else {
        Err(otherwise())
    }
}

/// Makes the call in the book too and compares the answer. The call had buffers of the right lengths.
pub fn follow(book: &mut Book, call: &Call, content: &[u8], both: &Both, answer: Answer) -> Result<(), Difference> {
    let expected = match *call {
        Call::Format => {
            *book = Book::new(book.check());
            Ok(book.check())
        }
        Call::Add { id, .. } => book.add(id, content),
        // The numbers of these are not the book's; that there is one is.
        Call::Remove { id } => book.remove(id).map(|()| answer.unwrap_or(0)),
        Call::Replace { id, .. } => book.replace(id, content).map(|()| answer.unwrap_or(0)),
        Call::Read { id, first, length } => book.read(id, first, length).map(|p| (p.len() / BLOCK) as u64),
        Call::Breaks { id } => book.breaks(id).map(|()| answer.unwrap_or(0)),
        Call::Free => Ok(book.free()),
        Call::Check => Ok(book.check()),
        Call::Which { n, places } => book.which(n, places).map(|ids| ids.map_or(FITS_ALREADY, |ids| ids.len() as u64)),
    };
    require(expected == answer, || format!("the manager gave {}, the book {}", told(answer), told(expected)))?;
    match (*call, answer) {
        (Call::Read { id, first, length }, Ok(_)) => {
            require(book.read(id, first, length) == Ok(both.output(length)), || "output is not the book's".into())
        }
        (Call::Breaks { id }, Ok(breaks)) => compare_limits(breaks, book.pages(id)),
        (Call::Which { n, places }, Ok(_)) => {
            let ids = book.which(n, places).ok().flatten().unwrap_or_default();
            require(has_ids(both.list(places), &ids), || "the listed ids are not the book's".into())
        }
        _ => Ok(()),
    }
}

/// Whether a list has these ids in any order, and then zeros. The order is not the book's.
pub fn has_ids(list: &[u16], ids: &BTreeSet<u16>) -> bool {
    let (listed, rest) = list.split_at(ids.len());
    BTreeSet::from_iter(listed.iter().copied()) == *ids && rest.iter().all(|&place| place == 0)
}

/// What holds of catalogue and disk after every list of calls: ids, n, pieces and pages are the book's, and the pieces
/// are as few as they can be.
pub fn compare_state(book: &Book, both: &Both) -> Result<(), Difference> {
    compare_lines(book, both, |_| true)
}

/// The same, with the pages of those files only of which the last call touched a block.
pub fn compare_touched(book: &Book, both: &Both) -> Result<(), Difference> {
    compare_lines(book, both, |entry| both.touched(entry))
}

/// Ids, n and pieces of all lines, and the pages of some. The number of pieces comes first, since the second
/// implementation takes no catalogue for sound that has another.
fn compare_lines(book: &Book, both: &Both, with_pages: impl Fn(&Entry) -> bool) -> Result<(), Difference> {
    compare_fewest(both.catalogue())?;
    let catalogue = model::sound(both.catalogue()).ok_or("the catalogue is not sound")?;
    require(catalogue.version == both.version, || "the version is another".into())?;
    let disk = both.disk(catalogue.blocks as usize);
    require(u64::from(catalogue.blocks) == book.check(), || "C is not the book's".into())?;
    let ids = catalogue.entries.iter().map(|e| (e.id, u64::from(e.blocks)));
    require(ids.eq(book.lines().map(|(id, pages)| (id, (pages.len() / BLOCK) as u64))), || {
        "ids and n are not the book's".into()
    })?;
    for (entry, (id, pages)) in catalogue.entries.iter().zip(book.lines()) {
        require(entry.pairs.len() as u32 == entry.blocks.count_ones(), || {
            format!("pieces of {id}: not the ones of n")
        })?;
        require(!with_pages(entry) || pages_lie_in(&entry.pairs, pages, disk), || {
            format!("the pieces of {id} do not hold its pages")
        })?;
    }
    let free_pieces = catalogue.free.len() as u32;
    require(u64::from(catalogue.free_blocks()) == book.free(), || "f is not the book's".into())?;
    require(free_pieces == (book.free() as u32).count_ones(), || "free pieces are not the ones of f".into())?;
    let all = catalogue.entries.iter().flat_map(|e| &e.pairs).chain(&catalogue.free);
    require(tile(all.copied().collect(), catalogue.blocks), || "a block is not in exactly one piece".into())
}

/// Whether the pieces, longest first, hold these pages in order.
fn pages_lie_in(pairs: &[Pair], pages: &[u8], disk: &[u8]) -> bool {
    let mut pieces = pairs.to_vec();
    pieces.sort_by_key(|piece| std::cmp::Reverse(piece.length));
    let mut rest = pages;
    pieces.iter().all(|piece| {
        let (start, length) = (piece.first as usize * BLOCK, piece.length as usize * BLOCK);
        match rest.split_at_checked(length) {
            Some((here, later)) => {
                rest = later;
                here == &disk[start..start + length]
            }
            None => false,
        }
    }) && rest.is_empty()
}

/// Whether each piece starts where the one before ends, from block 0 to C.
fn tile(mut pieces: Vec<Pair>, blocks: u32) -> bool {
    pieces.sort_by_key(|piece| piece.first);
    let mut end = 0;
    pieces.iter().all(|piece| {
        let adjoins = piece.first == end;
        end += piece.length;
        adjoins
    }) && end == blocks
}

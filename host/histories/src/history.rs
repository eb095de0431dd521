//! One list of calls from a fresh format: both implementations, and the book.

use model::{Answer, Book, Version, BLOCK};

use crate::both::{told, Both, Difference};
use crate::call::{stamp, Call, Lent};
use crate::numbers::Numbers;
use crate::tally::Tally;
use crate::watch::{compare_state, compare_touched, follow};

/// The greatest disk of which all bytes are compared after every call; of greater ones a part.
pub const MOST_WHOLE: usize = 5000;

/// A list of calls as far as it has been run.
pub struct History {
    pub both: Both,
    pub book: Book,
    pub blocks: usize,
    /// The calls since the format that the book followed: none with a buffer of a wrong length or a spoilt catalogue.
    pub followed: u64,
    content: Vec<u8>,
}

impl History {
    /// A disk of some blocks and a catalogue, with any bytes, before its format.
    pub fn new(version: Version, blocks: usize, numbers: &mut Numbers) -> History {
        let most = blocks + 1;
        let mut both = if blocks <= MOST_WHOLE { Both::new(version, most) } else { Both::in_parts(version, most) };
        both.fill_disk(most, numbers);
        let mut bytes = vec![0; BLOCK];
        numbers.fill(&mut bytes);
        both.set_catalogue(&bytes);
        History { both, book: Book::new(blocks as u64), blocks, followed: 0, content: Vec::new() }
    }

    /// The right lengths of the buffers.
    pub fn right(&self) -> Lent {
        Lent::right(self.both.version, self.blocks)
    }

    /// Makes a call of the list. The number of the call goes into the pages that it adds.
    pub fn step(&mut self, call: &Call, lent: Lent, number: u64, tally: &mut Tally) -> Result<Answer, Difference> {
        call.stamp(&mut self.content, number);
        let (f, n) = (self.book.free(), call.removed().map_or(0, |id| self.book.pages(id)));
        tally.begin(call);
        let answer = self.both.call(call, lent, &self.content)?;
        tally.end(call, answer);
        if !self.is_of_the_list(call, lent) {
            return self.refused_by_length(call, lent, answer).map(|()| answer);
        }
        follow(&mut self.book, call, &self.content, &self.both, answer)?;
        self.followed = if *call == Call::Format { 0 } else { self.followed + 1 };
        if let (Some(_), Ok(copied)) = (call.removed(), answer) {
            tally.count_removal(call, self.both.merges().check(f, n, copied)?);
        }
        tally.count_found(call, answer, &self.both);
        match answer {
            Ok(_) if call.changes() => compare_touched(&self.book, &self.both).map(|()| answer),
            // The bytes were found to be the second implementation's, which it only borrows to look at.
            _ => Ok(answer),
        }
    }

    /// Compares all bytes of the disks, and the pages of all files.
    pub fn compare_whole(&self) -> Result<(), Difference> {
        self.both.compare_disks()?;
        compare_state(&self.book, &self.both)
    }

    /// Goes back to bytes and lines that a list of calls led to; the lines are pages stamped without a call's number,
    /// and have letters.
    pub fn return_to(
        &mut self,
        cat: &[u8],
        disk: &[u8],
        lines: impl Iterator<Item = (u16, usize, u8)>,
    ) -> Result<(), Difference> {
        self.both.set_catalogue(cat);
        self.both.set_disk(disk);
        self.book = Book::new(self.blocks as u64);
        for (id, n, letter) in lines {
            stamp(&mut self.content, 0, id, n * BLOCK, letter);
            self.book.add(id, &self.content).map_err(|number| format!("the book refused {number}"))?;
        }
        Ok(())
    }

    /// Whether the lengths of the buffers are right, so that the book follows the call.
    fn is_of_the_list(&self, call: &Call, lent: Lent) -> bool {
        let right = self.right();
        match call {
            Call::Breaks { .. } | Call::Free | Call::Which { .. } => lent.cat == right.cat,
            _ => lent == right,
        }
    }

    /// Makes a call while the catalogue is spoilt, which has to be refused with 3, and restores it.
    pub fn step_spoilt(&mut self, call: &Call, spoilt: &[u8], tally: &mut Tally) -> Result<Answer, Difference> {
        let before = self.both.catalogue().to_vec();
        self.both.set_catalogue(spoilt);
        call.stamp(&mut self.content, 0);
        tally.begin(call);
        let answer = self.both.call(call, self.right(), &self.content)?;
        tally.end(call, answer);
        self.both.set_catalogue(&before);
        match answer {
            Err(3) => Ok(answer),
            _ => Err(format!("a catalogue that is not sound gave {}", told(answer))),
        }
    }

    /// A call with a buffer of a wrong length has to be refused for it: by the catalogue's length, by its version if
    /// another version is as long, or by the disk's length.
    fn refused_by_length(&self, call: &Call, lent: Lent, answer: Answer) -> Result<(), Difference> {
        let number = match (Version::of_length(lent.cat), call) {
            (None, _) => 1,
            (_, Call::Format) => 2,
            _ if lent.cat != self.right().cat => 3,
            _ => 4,
        };
        match answer {
            Err(refusal) if refusal == number => Ok(()),
            _ => Err(format!("a buffer of a wrong length gave {}, not refused {number}", told(answer))),
        }
    }
}

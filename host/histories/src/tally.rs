//! What was run, counted.

use model::Answer;

use crate::both::Both;
use crate::breaks::Breaks;
use crate::call::{Call, GIVEN, NAMES};
use crate::lists::Lists;
use crate::merges::Copied;
use crate::removals::Removals;

/// Something that has to be seen, and how often it was.
pub type Event = (String, u64);

/// The greatest number of a refusal.
const MOST: usize = 14;
/// Some replacement, and some call of which.
const REPLACE: Call = Call::Replace { id: 0, length: 0, letter: 0 };
const WHICH: Call = Call::Which { n: 0, places: 0 };

/// Counts of calls, refusals and removals.
#[derive(Default)]
pub struct Tally {
    pub calls: u64,
    kinds: [u64; NAMES.len()],
    answered: [u64; NAMES.len()],
    /// By call and number.
    refusals: [[u64; MOST + 1]; NAMES.len()],
    removals: Removals,
    /// The removals of replacements.
    replacements: Removals,
    pub breaks: Breaks,
    lists: Lists,
}

impl Tally {
    /// Counts a call that begins.
    pub fn begin(&mut self, call: &Call) {
        self.calls += 1;
        self.kinds[call.number()] += 1;
    }

    /// Counts the answer of a call.
    pub fn end(&mut self, call: &Call, answer: Answer) {
        match answer {
            Ok(_) => self.answered[call.number()] += 1,
            Err(number) => self.refusals[call.number()][usize::from(number)] += 1,
        }
    }

    /// Counts what a removal or a replacement copied.
    pub fn count_removal(&mut self, call: &Call, copied: Copied) {
        match call {
            Call::Replace { .. } => self.replacements.note(copied),
            _ => self.removals.note(copied),
        }
    }

    /// Counts what the last call found, if it is an answer of breaks or which.
    pub fn count_found(&mut self, call: &Call, answer: Answer, both: &Both) {
        match (call, answer) {
            (Call::Breaks { id }, Ok(number)) => self.breaks.note(number, both.most_breaks(*id)),
            (Call::Which { places, .. }, Ok(number)) => self.lists.note(number, both.list(*places)),
            _ => {}
        }
    }

    /// Counts what another has counted too.
    pub fn add(&mut self, other: &Tally) {
        self.calls += other.calls;
        self.removals = self.removals.with(other.removals);
        self.replacements = self.replacements.with(other.replacements);
        self.breaks = self.breaks.with(other.breaks);
        self.lists = self.lists.with(other.lists);
        let counts = self.kinds.iter_mut().chain(&mut self.answered).chain(self.refusals.as_flattened_mut());
        let more = other.kinds.iter().chain(&other.answered).chain(other.refusals.as_flattened());
        for (count, more) in counts.zip(more) {
            *count += more;
        }
    }

    /// What has to be seen in random lists, and how often it was: each call but format answered, each refusal, removals
    /// and replacements that copied or reached their limit, buddies with free blocks that moved, free buddies that were
    /// merged though the two lowest free sections were others, and each kind of answer of breaks and which.
    pub fn events(&self) -> Vec<Event> {
        let calls = NAMES.iter().zip(self.answered).skip(1).map(|(name, times)| (format!("{name} answered"), times));
        let refusals = (1..=MOST).map(|number| (format!("refusal {number}"), self.refused(number)));
        let removals = [
            ("a removal that copied", self.removals.copying),
            ("a removal that reached its carry bound", self.removals.at_bound),
            ("a replacement that copied", self.replacements.copying),
            ("a replacement that reached its bound", self.replacements.at_bound),
            ("a free block in a buddy that moved", self.spared()),
            ("free buddies that were not the two lowest", self.passing()),
            ("a file with fewer breaks than its limit", self.breaks.fewer()),
            ("a file with as many breaks as its limit", self.breaks.most),
            ("blocks that fit already", self.lists.fits),
            ("blocks for which no file suffices", self.lists.none),
            ("a listed id before a lower one", self.lists.falling),
        ];
        calls.chain(refusals).chain(removals.map(|(what, times)| (what.into(), times))).collect()
    }

    /// Each refusal of each call, and how often it was given.
    pub fn refusals_of_calls(&self) -> Vec<Event> {
        let of_call = |(call, numbers): (usize, &&[usize])| {
            let given = |&number: &usize| (format!("refusal {number} of {}", NAMES[call]), self.refusals[call][number]);
            numbers.iter().map(given).collect::<Vec<_>>()
        };
        GIVEN.iter().enumerate().flat_map(of_call).collect()
    }

    /// How often an add was answered.
    pub fn adds(&self) -> u64 {
        self.answered[Call::Add { id: 0, length: 0, letter: 0 }.number()]
    }

    /// How often a replacement was answered.
    pub fn replaced(&self) -> u64 {
        self.answered[REPLACE.number()]
    }

    /// How often all of the most files were listed.
    pub fn most_listed(&self) -> u64 {
        self.lists.most
    }

    /// How often a refusal was given.
    pub fn refused(&self, number: usize) -> u64 {
        self.refusals.iter().map(|of_call| of_call[number]).sum()
    }

    /// The removals and replacements that copied as many blocks as they may, and at least one.
    pub fn at_bound(&self) -> u64 {
        self.both().at_bound
    }

    /// The blocks that removals copied, and that replacements did.
    pub fn copied(&self) -> [u64; 2] {
        [self.removals.copied, self.replacements.copied]
    }

    /// The free blocks of buddies that moved, which were not copied.
    pub fn spared(&self) -> u64 {
        self.both().spared()
    }

    /// The merges of two free buddies though the two lowest free sections were others.
    pub fn passing(&self) -> u64 {
        self.both().passing
    }

    fn both(&self) -> Removals {
        self.removals.with(self.replacements)
    }

    /// Calls by kind, and refusals by number.
    pub fn print_calls(&self) {
        let kinds = NAMES.iter().zip(self.kinds).map(|(name, count)| format!("{name} {count}"));
        println!("  calls {}: {}", self.calls, kinds.collect::<Vec<_>>().join(", "));
        let refusals = (1..=MOST).map(|number| format!("{number}: {}", self.refused(number)));
        println!("  refusals by number: {}", refusals.collect::<Vec<_>>().join(", "));
        for call in [REPLACE.number(), WHICH.number()] {
            let refusals = GIVEN[call].iter().map(|&number| format!("{number}: {}", self.refusals[call][number]));
            println!("  of {}, in its order: {}", NAMES[call], refusals.collect::<Vec<_>>().join(", "));
        }
        self.breaks.print();
        self.lists.print();
    }

    /// What removals and replacements copied and merged.
    pub fn print_removals(&self) {
        self.removals.print("removals");
        self.replacements.print("replacements");
    }
}

#[cfg(test)]
mod tests {
    use super::*;

    #[test]
    fn a_refusal_is_counted_for_its_call() {
        let mut tally = Tally::default();
        for (call, answer) in [(REPLACE, Err(13)), (REPLACE, Err(11)), (REPLACE, Ok(0)), (Call::Free, Err(3))] {
            tally.begin(&call);
            tally.end(&call, answer);
        }
        let mut twice = Tally::default();
        twice.add(&tally);
        twice.add(&tally);
        assert_eq!([1, 3, 11, 12, 13].map(|number| twice.refused(number)), [0, 2, 2, 0, 2]);
        assert_eq!((twice.calls, twice.replaced(), twice.adds()), (8, 2, 0));
        let seen = |(what, times): Event| (times > 0).then_some(what);
        let seen: Vec<String> = twice.refusals_of_calls().into_iter().filter_map(seen).collect();
        assert_eq!(seen, ["refusal 13 of replace", "refusal 11 of replace", "refusal 3 of free"]);
    }
}

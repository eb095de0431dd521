//! All histories of small disks.
//!
//! In each version and for each C from 1 to 8 the calls of an alphabet are made in every state that any list of them
//! reaches: a state is all bytes of catalogue and disk, and the calls have no other memory, so that a state that was
//! met before needs no second visit. Layer by layer this covers every list of at most so many adds, removes and
//! replaces, with looks in between.

use model::{Version, BLOCK, MOST_FILES};

use crate::alphabet::{Alphabet, ALPHABETS, LETTERS};
use crate::both::Difference;
use crate::call::Call;
use crate::history::History;
use crate::numbers::Numbers;
use crate::states::{State, States, IDS};
use crate::tally::{Event, Tally};

/// The search over the lists of one alphabet.
struct Search {
    alphabet: &'static Alphabet,
    history: History,
    states: States,
    tally: Tally,
}

/// Runs all histories. False if there was a difference, or too little was seen with the depths chosen here.
pub fn run(depth: Option<usize>) -> bool {
    println!(
        "all histories of small disks: adds of ids 1 to 3 with n from 1 to C + 1, removes of ids 1 to 3, replaces of"
    );
    println!(
        "  them with n from 1 to C + 1, anywhere in a list or at its end, and in every state each read, breaks, free,"
    );
    println!(
        "  check of ids 0 to 4, adds and replaces of 511 bytes, replaces by C + 1 blocks with each letter, and which"
    );
    println!("  with n from 0 to C + 1, and with lists of 63 and 65 places");
    Version::ALL.into_iter().all(|version| in_version(version, depth))
}

/// All disks in one version.
fn in_version(version: Version, depth: Option<usize>) -> bool {
    println!("  version {}:", version.number);
    let mut all = Tally::default();
    for alphabet in &ALPHABETS {
        let most = depth.unwrap_or(alphabet.depth);
        let mut search = Search::new(version, alphabet);
        match search.run(most) {
            Ok(reached) => search.print(most, reached),
            Err(difference) => {
                let (number, blocks) = (version.number, alphabet.blocks);
                println!("DIFFERENCE: version {number}, {blocks} blocks, call {}: {difference}", search.tally.calls);
                return false;
            }
        }
        all.add(&search.tally);
    }
    all.print_calls();
    all.print_removals();
    let never_seen: Vec<Event> = required(&all).into_iter().filter(|(_, times)| *times == 0).collect();
    for (what, _) in &never_seen {
        println!("  never seen: {what}");
    }
    never_seen.is_empty() || depth.is_some()
}

/// What has to be seen: all that random lists have to show, but for buffers of wrong lengths and 64 files.
fn required(tally: &Tally) -> Vec<Event> {
    let elsewhere = [1, 2, 3, 4, 10].map(|number| format!("refusal {number}"));
    tally.events().into_iter().filter(|(what, _)| !elsewhere.contains(what)).collect()
}

impl Search {
    fn new(version: Version, alphabet: &'static Alphabet) -> Search {
        let history = History::new(version, alphabet.blocks, &mut Numbers::from_seed(alphabet.blocks as u64));
        Search { alphabet, history, states: States::default(), tally: Tally::default() }
    }

    /// Goes through the layers. The result is the first layer without a new state, if there was one.
    fn run(&mut self, most: usize) -> Result<Option<usize>, Difference> {
        self.step(&Call::Format)?;
        let mut layer: Vec<State> = self.states.meet(&self.history, [(0, 0); IDS.len()]).into_iter().collect();
        for depth in 0..most {
            let mut next = Vec::new();
            for state in &layer {
                self.visit(state, &mut next)?;
            }
            if next.is_empty() {
                return Ok(Some(depth));
            }
            layer = next;
        }
        for state in &layer {
            self.states.load(state, &mut self.history)?;
            self.look(state)?;
        }
        Ok(None)
    }

    /// Makes each call of the alphabet in a state, and gathers the states that are new.
    fn visit(&mut self, state: &State, next: &mut Vec<State>) -> Result<(), Difference> {
        self.states.load(state, &mut self.history)?;
        self.look(state)?;
        for (place, id) in IDS.into_iter().enumerate() {
            for (call, line) in self.alphabet.calls(id) {
                if self.step(&call)? {
                    let mut lines = state.lines;
                    lines[place] = line;
                    next.extend(self.states.meet(&self.history, lines));
                    self.states.load(state, &mut self.history)?;
                }
            }
        }
        Ok(())
    }

    /// Makes the calls that only look or are refused for a length, and replaces after which the list does not go on.
    fn look(&mut self, state: &State) -> Result<(), Difference> {
        self.step(&Call::Free)?;
        self.step(&Call::Check)?;
        self.look_for_removals()?;
        for id in 0..=4u16 {
            self.step(&Call::Breaks { id })?;
            self.step(&Call::Add { id, length: 511, letter: b'R' })?;
            self.step(&Call::Replace { id, length: 511, letter: b'?' })?;
            let line = usize::from(id).checked_sub(1).and_then(|line| state.lines.get(line));
            let (n, _) = line.copied().unwrap_or((0, 0));
            for first in 0..=n {
                for count in 0..=n - first + 1 {
                    self.step(&Call::Read { id, first: first as u64, length: count * BLOCK })?;
                }
            }
            if n > 0 {
                self.look_at_letters(id)?;
            }
            for call in self.alphabet.last_calls(id, n) {
                if self.step(&call)? {
                    self.states.load(state, &mut self.history)?;
                }
            }
        }
        Ok(())
    }

    /// Asks which removals would let n blocks in, for each n of the disk and at both ends, and with lists of other
    /// lengths.
    fn look_for_removals(&mut self) -> Result<(), Difference> {
        for n in 0..=self.alphabet.blocks as u64 + 1 {
            self.step(&Call::Which { n, places: MOST_FILES })?;
        }
        for (n, places) in [(0, MOST_FILES - 1), (1, MOST_FILES - 1), (1, MOST_FILES + 1)] {
            self.step(&Call::Which { n, places })?;
        }
        Ok(())
    }

    /// Makes replaces by more blocks than the disk has. They are refused, for a letter if that is to be refused too.
    fn look_at_letters(&mut self, id: u16) -> Result<(), Difference> {
        let length = (self.alphabet.blocks + 1) * BLOCK;
        for &letter in LETTERS {
            self.step(&Call::Replace { id, length, letter })?;
        }
        Ok(())
    }

    /// Whether the call was answered. Contents are stamped by id, page and letter, so that equal lines have equal
    /// pages.
    fn step(&mut self, call: &Call) -> Result<bool, Difference> {
        let right = self.history.right();
        let told = |difference| format!("{call}: {difference}");
        self.history.step(call, right, 0, &mut self.tally).map_err(told).map(|answer| answer.is_ok())
    }

    fn print(&self, most: usize, reached: Option<usize>) {
        let calls = IDS.len() * self.alphabet.calls(0).len();
        let lists = match reached {
            Some(depth) => format!("every list of any length: no new state after {depth} calls"),
            None => format!("every list of up to {most} of {calls} calls: {}", lists(calls, most)),
        };
        let (states, made) = (self.states.count(), self.tally.calls);
        println!(
            "  C = {}, {}: {lists}, {states} states, {made} calls made",
            self.alphabet.blocks,
            self.alphabet.told()
        );
    }
}

/// How many lists of up to so many calls there are.
fn lists(calls: usize, most: usize) -> u128 {
    (0..=most as u32).map(|length| (calls as u128).pow(length)).sum()
}

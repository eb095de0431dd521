//! Lists of many calls on one disk. What a list is rich in changes by turns, so that again and again the disk fills,
//! empties and has 64 files, and its ids are used anew. After every call all bytes are compared.

use model::{Version, MOST_FILES};

use crate::both::Difference;
use crate::call::Call;
use crate::history::History;
use crate::mixes::{ids, Mix};
use crate::numbers::Numbers;
use crate::random::{any_step, step};
use crate::tally::{Event, Tally};
use crate::watch::require;

/// The least length of a list, in calls that the book follows.
pub const LEAST: u64 = 20_000;
/// The disks of the lists.
const DISKS: [(Version, usize); 5] = [
    (Version::SMALL, LONGEST),
    (Version::SMALL, 1000),
    (Version::SMALL, 4096),
    (Version::LARGE, LONGEST),
    (Version::LARGE, 1000),
];
/// The blocks of the disks that have the longest lists.
const LONGEST: usize = 261;
/// In every so many calls of a list each event has to be seen.
const STRETCH: u64 = 10_000;
/// Each has its turn, and then each again in another order.
const TURNS: [Mix; 7] = [Mix::Many, Mix::Moves, Mix::Full, Mix::Swarm, Mix::Any, Mix::Pieces, Mix::Empty];

/// A list of calls as far as it has been run, and what was seen of it.
pub struct List {
    pub history: History,
    ids: Vec<u16>,
    /// The turns that are left of a round.
    turns: Vec<Mix>,
    tally: Tally,
    seen: Seen,
}

/// How often something became of the disk of a list.
#[derive(Default)]
struct Seen {
    /// It became full, came to have no file, and came to have the most files.
    full: u64,
    empty: u64,
    most_files: u64,
    /// A file was replaced while there were the most files, and while no block was free.
    replaced_of_most: u64,
    replaced_in_full: u64,
}

/// What a list is at before a call.
struct State {
    files: usize,
    free: u64,
    replaced: u64,
}

/// Runs the lists; the longest of each version have at least so many calls. False if there was a difference, a list was
/// shorter, or too little was seen.
pub fn run(seed: u64, longest: u64) -> bool {
    println!("long lists, each of calls on one disk: seed {seed}, at least {LEAST} calls, the longest {longest}");
    let mut numbers = Numbers::from_seed(seed);
    let mut lists = Vec::new();
    for (version, blocks) in DISKS {
        let least = if blocks == LONGEST { longest.max(LEAST) } else { LEAST };
        let mut list = List::new(version, blocks, &mut numbers);
        if let Err(reason) = list.run(least, STRETCH, &mut numbers) {
            let call = list.tally.calls;
            println!("FAILED: seed {seed}, version {}, {blocks} blocks, call {call}: {reason}", version.number);
            return false;
        }
        lists.push(list);
    }
    print(&lists);
    let lengths = lists.iter().map(|list| list.history.followed);
    let (shortest, most) = (lengths.clone().min().unwrap_or(0), lengths.max().unwrap_or(0));
    println!("  after every call all bytes of catalogue, disk and output were compared");
    println!("  the longest list has {most} calls, the shortest {shortest}");
    shortest >= LEAST && most >= longest
}

/// Prints a column for each list.
fn print(lists: &[List]) {
    let columns: Vec<Vec<Event>> = lists.iter().map(List::column).collect();
    for (row, (what, _)) in columns[0].iter().enumerate() {
        let numbers: String = columns.iter().map(|column| format!("{:9}", column[row].1)).collect();
        println!("  {what:42}{numbers}");
    }
}

impl List {
    /// A list before its format.
    pub fn new(version: Version, blocks: usize, numbers: &mut Numbers) -> List {
        let (history, ids) = (History::new(version, blocks, numbers), ids(numbers));
        List { history, ids, turns: Vec::new(), tally: Tally::default(), seen: Seen::default() }
    }

    /// Runs the list until it has so many calls. It is an error if something differs, or if one stretch of so many
    /// calls is without an event.
    pub fn run(&mut self, calls: u64, stretch: u64, numbers: &mut Numbers) -> Result<(), Difference> {
        let right = self.history.right();
        step(&mut self.history, Call::Format, right, &mut self.tally)?;
        while self.history.followed < calls {
            let (start, before) = (self.history.followed, self.events());
            while self.history.followed < start + stretch {
                self.turn(numbers)?;
            }
            let never = self.never_since(&before);
            require(never.is_empty(), || format!("never seen from call {start} of the list on: {}", never.join(", ")))?;
        }
        Ok(())
    }

    /// The calls of one turn.
    fn turn(&mut self, numbers: &mut Numbers) -> Result<(), Difference> {
        if self.turns.is_empty() {
            self.turns.extend(TURNS);
            numbers.shuffle(&mut self.turns);
        }
        let mix = self.turns.pop().expect("a round has turns");
        for _ in 0..numbers.within(150, 400) {
            let before = self.state();
            any_step(&mut self.history, mix, &self.ids, numbers, &mut self.tally)?;
            self.note(before);
        }
        Ok(())
    }

    /// The files, the free blocks, and the replacements so far.
    fn state(&self) -> State {
        let book = &self.history.book;
        State { files: book.lines().len(), free: book.free(), replaced: self.tally.replaced() }
    }

    /// Notes what became of a disk by a call.
    fn note(&mut self, before: State) {
        let State { files, free, replaced } = self.state();
        let (seen, replaced) = (&mut self.seen, replaced > before.replaced);
        seen.full += u64::from(free == 0 && before.free > 0);
        seen.empty += u64::from(files == 0 && before.files > 0);
        seen.most_files += u64::from(files == MOST_FILES && before.files < MOST_FILES);
        seen.replaced_of_most += u64::from(replaced && before.files == MOST_FILES);
        seen.replaced_in_full += u64::from(replaced && before.free == 0);
    }

    /// What has to be seen, and how often it was.
    fn events(&self) -> Vec<Event> {
        let mut events = self.tally.events();
        let disk = [
            ("the last free block taken", self.seen.full),
            ("the last file removed", self.seen.empty),
            ("the 64th file added", self.seen.most_files),
            ("one of 64 files replaced", self.seen.replaced_of_most),
            ("a file replaced with no block free", self.seen.replaced_in_full),
            ("all of 64 files listed", self.tally.most_listed()),
            // At least: each of the ids can be used for the first time once.
            ("an id used again", self.tally.adds().saturating_sub(self.ids.len() as u64)),
        ];
        events.extend(disk.map(|(what, times)| (what.into(), times)));
        events
    }

    /// The events that were not seen since they had been seen so often.
    fn never_since(&self, before: &[Event]) -> Vec<String> {
        let same = self.events().into_iter().zip(before).filter(|(now, before)| now == *before);
        same.map(|((what, _), _)| what).collect()
    }

    /// What is printed of the list.
    fn column(&self) -> Vec<Event> {
        let History { both, blocks, followed, .. } = &self.history;
        let others = self.tally.calls - followed;
        let mut column: Vec<Event> = [
            ("version", u64::from(both.version.number)),
            ("blocks", *blocks as u64),
            ("calls of the list", *followed),
            ("others: format, lengths, spoilt catalogues", others),
        ]
        .map(|(what, number)| (what.into(), number))
        .into();
        column.extend(self.events());
        column
    }
}

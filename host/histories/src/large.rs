//! Random histories on disks that only the large catalogue has, and that are too long to be compared whole each time.
//! The disks of 4,097 and 5,000 blocks are not here: `random.rs` compares them whole after every call.
//!
//! After every call the answer, the catalogue, the output and the blocks of `touched.rs` are compared, and after an
//! add, a removal or a replacement the pages of each file of which it touched a block. All bytes of the disks, and the
//! pages of all files, are compared after every `INTERVAL` calls and at the end of each list. That a refused call has
//! changed no byte is found at once of the catalogue and the output, and of the disk by the window and at the
//! intervals.

use model::{Version, BLOCK, MOST_FILES};

use crate::both::Difference;
use crate::call::Call;
use crate::history::History;
use crate::landmarks::landmarks;
use crate::mixes::{ids, Mix};
use crate::numbers::Numbers;
use crate::random::{any_step, step};
use crate::tally::Tally;
use crate::touched::ROUND;

/// After so many calls of a list all files are listed, by their removals, and the disks are compared whole.
const INTERVAL: usize = 25;
/// With so many random calls asked for, the lists of `DISKS` are run once.
const ONCE: u64 = 200_000;

/// The lists of calls on one disk.
struct Lists {
    blocks: usize,
    calls: usize,
    mixes: &'static [Mix],
}

/// What is run: longer disks have fewer calls.
const DISKS: [Lists; 3] = [
    Lists { blocks: 65_537, calls: 200, mixes: &[Mix::Many, Mix::Pieces, Mix::Full, Mix::Moves, Mix::Any, Mix::Swarm] },
    Lists { blocks: 262_144, calls: 120, mixes: &[Mix::Many, Mix::Pieces, Mix::Full, Mix::Moves] },
    Lists { blocks: 1_048_576, calls: 110, mixes: &[Mix::Many, Mix::Pieces] },
];

/// What was run.
#[derive(Default)]
struct Counts {
    lists: u64,
    whole: u64,
    most_files: usize,
    most_pieces: u32,
    tally: Tally,
}

/// Runs the lists, more often if more calls are asked for. False if there was a difference, or too little was seen.
pub fn run(seed: u64, calls: u64, numbers: &mut Numbers) -> bool {
    let mut counts = Counts::default();
    let outcome = run_landmarks(numbers, &mut counts)
        .map_err(|difference| format!("the list of landmarks, {difference}"))
        .and_then(|()| (0..calls.div_ceil(ONCE)).try_for_each(|_| all_lists(numbers, &mut counts)));
    if let Err(difference) = outcome {
        println!("DIFFERENCE: seed {seed}, call {} on large disks: {difference}", counts.tally.calls);
        return false;
    }
    counts.print();
    counts.saw_enough()
}

fn all_lists(numbers: &mut Numbers, counts: &mut Counts) -> Result<(), Difference> {
    for Lists { blocks, calls, mixes } in DISKS {
        for &mix in mixes {
            one_list(blocks, calls, mix, numbers, counts)
                .map_err(|difference| format!("{blocks} blocks, {mix:?}: {difference}"))?;
        }
    }
    Ok(())
}

fn one_list(
    blocks: usize,
    calls: usize,
    mix: Mix,
    numbers: &mut Numbers,
    counts: &mut Counts,
) -> Result<(), Difference> {
    let mut history = History::new(Version::LARGE, blocks, numbers);
    let ids = ids(numbers);
    let right = history.right();
    step(&mut history, Call::Format, right, &mut counts.tally)?;
    for call in 1..=calls {
        any_step(&mut history, mix, &ids, numbers, &mut counts.tally)?;
        counts.note(&history);
        if call % INTERVAL == 0 || call == calls {
            let n = history.book.free() + 1;
            step(&mut history, Call::Which { n, places: MOST_FILES }, right, &mut counts.tally)?;
            counts.compare(&history)?;
        }
    }
    counts.lists += 1;
    Ok(())
}

/// The calls of `landmarks.rs`, with their answers.
fn run_landmarks(numbers: &mut Numbers, counts: &mut Counts) -> Result<(), Difference> {
    let most = Version::LARGE.most_blocks;
    let mut history = History::new(Version::LARGE, most, numbers);
    for (call, expected) in landmarks(most) {
        let right = history.right();
        let number = counts.tally.calls + 1;
        let answer = history.step(&call, right, number, &mut counts.tally).map_err(|why| format!("{call}: {why}"))?;
        if answer != expected.map(|number| number as u64) {
            return Err(format!("{call}: {answer:?}, not {expected:?}"));
        }
        counts.note(&history);
    }
    counts.lists += 1;
    counts.compare(&history)
}

impl Counts {
    /// Compares all of a history.
    fn compare(&mut self, history: &History) -> Result<(), Difference> {
        self.whole += 1;
        history.compare_whole()
    }

    fn note(&mut self, history: &History) {
        self.most_files = self.most_files.max(history.book.lines().len());
        let pieces = history.book.lines().map(|(_, pages)| (pages.len() / BLOCK).count_ones());
        self.most_pieces = self.most_pieces.max(pieces.max().unwrap_or(0));
    }

    fn print(&self) {
        let disks = DISKS.map(|lists| lists.blocks.to_string()).join(", ");
        println!("  version {}: {} lists of calls on disks of {disks} blocks,", Version::LARGE.number, self.lists);
        println!("  up to {} files at once, and up to {} pieces in a file;", self.most_files, self.most_pieces);
        println!(
            "  after every call all bytes of catalogue and output were compared, and of the disks the touched blocks,"
        );
        println!("  their neighbours and one part in {ROUND} by turns; the disks whole {} times:", self.whole);
        println!("  after every {INTERVAL} calls and at the end of each list");
        self.tally.print_calls();
        self.tally.print_removals();
    }

    /// There were 64 files at once, as many pieces as a file can have, no space, letters that do not replace, copies,
    /// free blocks not copied, free buddies that were merged though the two lowest free sections were others, and files
    /// with fewer breaks than they may have and with as many.
    fn saw_enough(&self) -> bool {
        let seen = [
            ("64 files", self.most_files == MOST_FILES),
            ("a file of the most pieces", self.most_pieces == u32::from(Version::LARGE.most_height())),
            ("refusal 11", self.tally.refused(11) > 0),
            ("refusal 10", self.tally.refused(10) > 0),
            ("refusals 12 and 13", self.tally.refused(12) > 0 && self.tally.refused(13) > 0),
            ("a removal that copied, and a replacement", !self.tally.copied().contains(&0)),
            ("a buddy with free blocks that moved", self.tally.spared() > 0),
            ("free buddies that were not the two lowest", self.tally.passing() > 0),
            ("a file with fewer breaks than its limit", self.tally.breaks.fewer() > 0),
            ("a file with as many breaks as its limit", self.tally.breaks.most > 0),
            ("a list of 64 files", self.tally.most_listed() > 0),
        ];
        for (what, _) in seen.iter().filter(|(_, seen)| !seen) {
            println!("  never seen on large disks: {what}");
        }
        seen.iter().all(|(_, seen)| *seen)
    }
}

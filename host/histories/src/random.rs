//! Long random histories, fixed by one seed.

use model::{Version, BLOCK};

use crate::both::Difference;
use crate::call::{Call, Lent};
use crate::history::{History, MOST_WHOLE};
use crate::large;
use crate::mixes::{ids, next_call, Mix, MIXES};
use crate::numbers::Numbers;
use crate::tally::{Event, Tally};
use crate::wild::{wild_call, wrong_lengths};

/// Disks that each run has, if the version has them.
const DISKS: [usize; 10] = [1, 2, 3, 5, 16, 261, 4095, 4096, 4097, 5000];

/// Runs histories in each version until so many calls have been made, and then those on larger disks. False if there
/// was a difference, or too little was seen.
pub fn run(seed: u64, calls: u64) -> bool {
    println!("random histories: seed {seed}, at least {calls} calls");
    let mut numbers = Numbers::from_seed(seed);
    let share = calls.div_ceil(Version::ALL.len() as u64);
    let small_disks = Version::ALL.into_iter().all(|version| in_version(version, seed, share, &mut numbers));
    small_disks && large::run(seed, calls, &mut numbers)
}

/// Disks that are compared whole after every call, in one version.
fn in_version(version: Version, seed: u64, calls: u64, numbers: &mut Numbers) -> bool {
    let mut tally = Tally::default();
    let fixed: Vec<usize> = DISKS.into_iter().filter(|&blocks| blocks <= version.most_blocks).collect();
    let mut disks = 0;
    while tally.calls < calls || disks < fixed.len() {
        let blocks = fixed.get(disks).copied().unwrap_or_else(|| any_blocks(version, numbers));
        let mix = if disks < fixed.len() && blocks == 261 { Mix::Many } else { numbers.pick(&MIXES) };
        if let Err(difference) = one_history(version, blocks, mix, numbers, &mut tally) {
            let number = version.number;
            println!("DIFFERENCE: seed {seed}, version {number}, call {}, {blocks} blocks: {difference}", tally.calls);
            return false;
        }
        disks += 1;
    }
    let most = version.most_blocks.min(MOST_WHOLE);
    println!(
        "  version {}: {disks} disks of 1 to {most} blocks, each a list of calls from its format;",
        version.number
    );
    println!("  after every call all bytes of catalogue, disk and output were compared");
    tally.print_calls();
    tally.print_removals();
    let events = tally.events().into_iter().chain(tally.refusals_of_calls());
    let never_seen: Vec<Event> = events.filter(|(_, times)| *times == 0).collect();
    for (what, _) in &never_seen {
        println!("  never seen: {what}");
    }
    never_seen.is_empty()
}

/// Small disks mostly, on which every call is quick and every kind of layout is met soon.
fn any_blocks(version: Version, numbers: &mut Numbers) -> usize {
    match numbers.within(0, 99) {
        0..=1 => numbers.pick(&[4095, 4096]),
        2..=3 => numbers.within(601, version.most_blocks.min(MOST_WHOLE)),
        4..=13 => numbers.within(65, 600),
        14..=23 => 261,
        24..=59 => numbers.within(1, 64),
        _ => numbers.pick(&DISKS[..5]),
    }
}

/// One list of calls, from a format. A difference is told with its call.
fn one_history(
    version: Version,
    blocks: usize,
    mix: Mix,
    numbers: &mut Numbers,
    tally: &mut Tally,
) -> Result<(), Difference> {
    let mut history = History::new(version, blocks, numbers);
    let ids = ids(numbers);
    let right = history.right();
    step(&mut history, Call::Format, right, tally)?;
    for _ in 0..numbers.within(150, 400) {
        any_step(&mut history, mix, &ids, numbers, tally)?;
    }
    Ok(())
}

/// Any call: mostly one that is answered, else one with wrong arguments, wrong lengths or a spoilt catalogue.
pub fn any_step(
    history: &mut History,
    mix: Mix,
    ids: &[u16],
    numbers: &mut Numbers,
    tally: &mut Tally,
) -> Result<(), Difference> {
    let right = history.right();
    match numbers.within(0, 99) {
        0..=84 => {
            let call = next_call(mix, ids, history, numbers);
            step(history, call, right, tally)
        }
        85..=93 => {
            let call = wild_call(ids, &history.book, numbers);
            step(history, call, right, tally)
        }
        94..=97 => wrongly_lent(history, ids, numbers, tally),
        _ => spoilt(history, ids, numbers, tally),
    }
}

/// Makes a call of a list.
pub fn step(history: &mut History, call: Call, lent: Lent, tally: &mut Tally) -> Result<(), Difference> {
    let number = tally.calls + 1;
    history.step(&call, lent, number, tally).map_err(|difference| format!("{call} ({lent}): {difference}")).map(drop)
}

/// A call with a buffer of a wrong length. A format is not lent another catalogue or disk that it would take.
fn wrongly_lent(
    history: &mut History,
    ids: &[u16],
    numbers: &mut Numbers,
    tally: &mut Tally,
) -> Result<(), Difference> {
    let lent = wrong_lengths(history.right(), numbers);
    let no_disk = lent.disk == 0 || !lent.disk.is_multiple_of(BLOCK);
    let format = numbers.one_in(4) && (no_disk || Version::of_length(lent.cat).is_none());
    let call = if format { Call::Format } else { wild_call(ids, &history.book, numbers) };
    step(history, call, lent, tally)
}

/// A call on a catalogue that is not sound for the time of the call.
fn spoilt(history: &mut History, ids: &[u16], numbers: &mut Numbers, tally: &mut Tally) -> Result<(), Difference> {
    let mut bytes = history.both.catalogue().to_vec();
    loop {
        let place = if numbers.one_in(4) { numbers.within(0, bytes.len() - 1) } else { numbers.within(0, 60) };
        bytes[place] ^= 1 << numbers.within(0, 7);
        if model::sound(&bytes).is_none() {
            break;
        }
    }
    let call = wild_call(ids, &history.book, numbers);
    history.step_spoilt(&call, &bytes, tally).map_err(|difference| format!("{call} (spoilt): {difference}")).map(drop)
}

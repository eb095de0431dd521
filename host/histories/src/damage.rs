//! Damaged catalogues: every call on them is what the second implementation's own reading of the rules gives.

use model::{Catalogue, Version, BLOCK, MOST_FILES};

use crate::both::{told, Both, Difference};
use crate::call::{Call, Lent};
use crate::history::MOST_WHOLE;
use crate::layouts::any_sound;
use crate::letters;
use crate::numbers::Numbers;
use crate::spoil::spoil;
use crate::tally::Tally;
use crate::twists::twisted;
use crate::wild::wild_which;
use crate::{lengths, staircases};

/// The catalogues of one size: C is up to so many blocks, and the buffers of the disk have so many.
#[derive(Clone, Copy)]
struct Size {
    blocks: usize,
    disk: usize,
    /// How many of 1,000 catalogues have this size.
    share: usize,
}

/// The sizes of the disks that each version has.
const SIZES: [Size; 3] = [
    Size { blocks: 24, disk: 24, share: 934 },
    Size { blocks: 160, disk: 160, share: 60 },
    Size { blocks: 4096, disk: 4096, share: 1 },
];
/// Catalogues of any size that the version has are lent a disk of at most so many blocks: mostly a wrong one. That is
/// refused after soundness, so that the catalogue of a long disk is tried without the disk.
const ANY_SIZE: usize = 24;

/// What was run.
#[derive(Default)]
struct Counts {
    catalogues: u64,
    refused: u64,
    still_sound: u64,
    untouched: u64,
    tally: Tally,
}

/// Runs the calls on so many damaged catalogues, and on others that are sound but that no list of calls need lead to:
/// as many of each version. Then buffers of wrong lengths. False if there was a difference.
pub fn run(seed: u64, count: u64) -> bool {
    println!("damaged catalogues: seed {seed}, {count} catalogues");
    let mut numbers = Numbers::from_seed(seed);
    let share = count.div_ceil(Version::ALL.len() as u64);
    for version in Version::ALL {
        let mut counts = Counts::default();
        if let Err(difference) = in_version(version, share, &mut numbers, &mut counts) {
            let place = counts.catalogues + counts.untouched;
            println!("DIFFERENCE: seed {seed}, version {}, catalogue {place}: {difference}", version.number);
            return false;
        }
        counts.print(version);
    }
    lengths::run(&mut numbers)
}

/// So many damaged catalogues of one version, and the removals that copy most.
fn in_version(version: Version, count: u64, numbers: &mut Numbers, counts: &mut Counts) -> Result<(), Difference> {
    let mut sizes = SIZES.to_vec();
    sizes.push(Size { blocks: version.most_blocks, disk: ANY_SIZE, share: 5 });
    let mut by_size: Vec<Both> = sizes.iter().map(|size| filled(version, size.disk, numbers)).collect();
    while counts.catalogues < count {
        let size = numbers.pick_by(sizes.iter().map(|size| size.share));
        one_catalogue(sizes[size], &mut by_size[size], numbers, counts)?;
    }
    let most = staircases::run(version, numbers, &mut counts.tally);
    counts.untouched += most.map_err(|difference| format!("the removals that copy most: {difference}"))?;
    Ok(())
}

impl Counts {
    fn print(&self, version: Version) {
        let Counts { catalogues, refused, still_sound, untouched, .. } = self;
        println!("  version {}: damaged {catalogues}: not sound {refused}, sound still {still_sound}", version.number);
        println!("  not damaged {untouched}: any sound layout");
        self.tally.print_calls();
        self.tally.print_removals();
    }
}

/// Both, with any bytes on disks of so many blocks.
fn filled(version: Version, blocks: usize, numbers: &mut Numbers) -> Both {
    let mut both = Both::new(version, blocks);
    both.fill_disk(blocks, numbers);
    both
}

/// The bytes of a catalogue in the buffer of a version, which need not be its own.
pub fn bytes_in(version: Version, catalogue: &Catalogue) -> Vec<u8> {
    let mut bytes = vec![0; version.catalogue];
    model::write(catalogue, &mut bytes);
    bytes
}

/// Makes a sound catalogue, damages it mostly, and makes all calls on it.
fn one_catalogue(size: Size, both: &mut Both, numbers: &mut Numbers, counts: &mut Counts) -> Result<(), Difference> {
    let version = both.version;
    let blocks = numbers.within(1, size.blocks) as u32;
    let catalogue = any_sound(version, blocks, numbers);
    let mut bytes = bytes_in(version, &catalogue);
    if model::sound(&bytes).as_ref() != Some(&catalogue) {
        return Err(format!("a sound catalogue is not read back: {catalogue:?}"));
    }
    let damaged = !numbers.one_in(11);
    while damaged && model::sound(&bytes).as_ref() == Some(&catalogue) {
        match numbers.one_in(3) {
            true => bytes = bytes_in(version, &twisted(version, blocks, numbers)),
            false => spoil(&mut bytes, &catalogue, numbers),
        }
    }
    let meaning = model::sound(&bytes);
    match (damaged, &meaning) {
        (false, _) => counts.untouched += 1,
        (true, None) => counts.refused += 1,
        (true, Some(_)) => counts.still_sound += 1,
    }
    counts.catalogues += u64::from(damaged);
    let calls = calls(meaning.as_ref().unwrap_or(&catalogue), size.disk, numbers);
    let lent = Lent::right(version, size.disk.min(blocks as usize));
    let mut content = Vec::new();
    for call in calls {
        both.set_catalogue(&bytes);
        call.stamp(&mut content, counts.tally.calls);
        one_call(both, lent, &call, &content, meaning.as_ref(), &mut counts.tally)
            .map_err(|difference| format!("{call}, C {blocks}: {difference}"))?;
    }
    Ok(())
}

/// Makes a call on both. It is refused with 3 exactly if the bytes mean no catalogue.
pub fn one_call(
    both: &mut Both,
    lent: Lent,
    call: &Call,
    content: &[u8],
    meaning: Option<&Catalogue>,
    tally: &mut Tally,
) -> Result<(), Difference> {
    tally.begin(call);
    let answer = both.call(call, lent, content)?;
    tally.end(call, answer);
    if (answer == Err(3)) != meaning.is_none() {
        return Err(format!("{} though the bytes mean {meaning:?}", told(answer)));
    }
    if let (Some(id), Ok(copied), Some(catalogue)) = (call.removed(), answer, meaning) {
        let n = catalogue.entry(id).map_or(0, |entry| u64::from(entry.blocks));
        tally.count_removal(call, both.merges().check(u64::from(catalogue.free_blocks()), n, copied)?);
    }
    tally.count_found(call, answer, both);
    Ok(())
}

/// Each call once, with arguments that a sound catalogue answers mostly, and which with any too. Contents and outputs
/// fit the lent disk.
fn calls(catalogue: &Catalogue, disk: usize, numbers: &mut Numbers) -> [Call; 9] {
    let ids: Vec<u16> = catalogue.entries.iter().map(|entry| entry.id).collect();
    let unheld = numbers.field();
    let id = if ids.is_empty() || numbers.one_in(10) { unheld } else { numbers.pick(&ids) };
    let n = catalogue.entry(id).map_or(1, |entry| entry.blocks.max(1) as usize);
    let first = numbers.within(0, n - 1);
    let count = numbers.within(1, (n - first).min(disk));
    let f = catalogue.free_blocks() as usize;
    let pages = numbers.within(1, f.clamp(1, disk));
    let replaced = numbers.within(1, (f + n + 1).min(disk));
    // Of a long disk only a longest file is to be removed for its list, as the second implementation takes its time.
    let longest = catalogue.entries.iter().map(|entry| entry.blocks as usize).max().unwrap_or(1);
    let (least, n) = if catalogue.blocks as usize > MOST_WHOLE { (f + longest, longest) } else { (f + 1, n) };
    [
        Call::Add { id: unheld, length: pages * BLOCK, letter: letters::low(numbers) },
        Call::Replace { id, length: replaced * BLOCK, letter: letters::any(numbers) },
        Call::Remove { id },
        Call::Read { id, first: first as u64, length: count * BLOCK },
        Call::Breaks { id },
        Call::Free,
        Call::Check,
        Call::Which { n: numbers.within(least, f + n + 1) as u64, places: MOST_FILES },
        wild_which(f as u64, n as u64, numbers),
    ]
}

//! Buffers of every length around each limit.

use model::{Version, BLOCK, MOST_FILES};

use crate::both::{told, Both, Difference};
use crate::call::{Call, Lent};
use crate::history::MOST_WHOLE;
use crate::letters;
use crate::numbers::Numbers;
use crate::tally::Tally;

/// The disks: the smallest, some, and those around the greatest of the small catalogue.
const DISKS: [usize; 6] = [1, 2, 21, 4095, 4096, 4097];
/// The file that is there, and its quality letter.
const HELD: u16 = 7;
const STORED: u8 = b'D';

/// Makes every call with buffers of every length around each limit. False if there was a difference.
pub fn run(numbers: &mut Numbers) -> bool {
    let mut tally = Tally::default();
    for version in Version::ALL {
        for blocks in DISKS.into_iter().filter(|&blocks| blocks <= version.most_blocks) {
            if let Err(difference) = on_disk(version, blocks, numbers, &mut tally) {
                println!("DIFFERENCE: version {}, lengths on {blocks} blocks: {difference}", version.number);
                return false;
            }
        }
        if let Err(difference) = greatest_disks(version, &mut tally) {
            println!("DIFFERENCE: version {}, the greatest disks: {difference}", version.number);
            return false;
        }
    }
    println!("  buffers of lengths around each limit, on disks of {DISKS:?} blocks as each version has them,");
    println!("  and formats of disks around the greatest C:");
    tally.print_calls();
    true
}

/// Formats of disks around the greatest C. They have zero bytes that no call touches, and so take no memory.
fn greatest_disks(version: Version, tally: &mut Tally) -> Result<(), Difference> {
    let most = version.most_blocks * BLOCK;
    for length in [most - BLOCK, most - 1, most, most + 1, most + BLOCK - 1, most + BLOCK] {
        let disk = vec![0; length];
        let mut cats = [0x5A; 2].map(|mark| vec![mark; version.catalogue]);
        tally.begin(&Call::Format);
        let [one, other] = &mut cats;
        let proved = event_disk::format(one, &disk).map_err(|refusal| refusal.number());
        let second = model::format(other, &disk);
        tally.end(&Call::Format, proved);
        let right = if length <= most && length.is_multiple_of(BLOCK) { Ok((length / BLOCK) as u64) } else { Err(2) };
        let unchanged = cats[0].iter().all(|&byte| byte == 0x5A);
        if proved != right || second != right || cats[0] != cats[1] || unchanged != right.is_err() {
            let (proved, second) = (told(proved), told(second));
            return Err(format!("format of {length} bytes: proved {proved}, second {second}"));
        }
    }
    Ok(())
}

/// One disk with one file, and all lengths of all buffers.
fn on_disk(version: Version, blocks: usize, numbers: &mut Numbers, tally: &mut Tally) -> Result<(), Difference> {
    let mut both = Both::new(version, longest_disk(version) + 1);
    both.fill_disk(blocks, numbers);
    let right = Lent::right(version, blocks);
    let held = blocks.div_ceil(3);
    let mut content = Vec::new();
    let add = Call::Add { id: HELD, length: held * BLOCK, letter: STORED };
    for call in [Call::Format, add] {
        tally.begin(&call);
        call.stamp(&mut content, 0);
        tally.end(&call, both.call(&call, right, &content)?);
    }
    let (formatted, disk) = (both.catalogue().to_vec(), both.disk(blocks).to_vec());
    for lent in lent_lengths(version, blocks) {
        for call in calls(blocks - held, held, lent == right) {
            call.stamp(&mut content, tally.calls);
            let told = |difference| format!("{call} ({lent}): {difference}");
            tally.begin(&call);
            let answer = both.call(&call, lent, &content).map_err(told)?;
            tally.end(&call, answer);
            tally.count_found(&call, answer, &both);
            if (answer == Err(1)) != Version::of_length(lent.cat).is_none() {
                return Err(told(format!("{answer:?} by the length of the catalogue")));
            }
            if answer.is_ok() && call.changes() {
                both.set_catalogue(&formatted);
                both.set_disk(&disk);
            }
        }
    }
    Ok(())
}

/// The most blocks of a version's disks, as far as they are compared whole.
fn longest_disk(version: Version) -> usize {
    version.most_blocks.min(MOST_WHOLE)
}

/// Lengths of the disk with the right catalogue, and of the catalogue with some of these.
fn lent_lengths(version: Version, blocks: usize) -> Vec<Lent> {
    let disk = blocks * BLOCK;
    let around = |length: usize| [length - BLOCK, length - 1, length, length + 1, length + BLOCK];
    let mut disks = [[0, 1, 511, 512, 513], around(disk), around(longest_disk(version) * BLOCK)].concat();
    disks.sort_unstable();
    disks.dedup();
    let mut lent: Vec<Lent> = disks.into_iter().map(|disk| Lent { cat: version.catalogue, disk }).collect();
    let lengths = Version::ALL.map(|version| version.catalogue);
    let around = |cat: usize| [cat - 2, cat - 1, cat, cat + 1, cat + 2, 2 * cat - 1, 2 * cat];
    let cats = [0, 1, 2, 6].into_iter().chain(lengths.into_iter().flat_map(around));
    for cat in cats.filter(|&cat| cat != version.catalogue) {
        lent.extend([0, disk, disk + 1].map(|disk| Lent { cat, disk }));
    }
    lent
}

/// Calls of each kind. With buffers of the right lengths, contents and outputs have all lengths around their limits.
fn calls(free: usize, held: usize, lent_right: bool) -> Vec<Call> {
    let around = |pages: usize| [pages * BLOCK, pages * BLOCK + 1, (pages + 1) * BLOCK - 1, (pages + 1) * BLOCK];
    let (lengths, firsts) = match lent_right {
        true => {
            let lengths = [around(0), around(1), around(free), around(held), around(free + held)].concat();
            let short = [letters::PLACE, letters::PLACE + 1];
            (lengths.into_iter().chain(short).collect(), vec![0, 1, held as u64, u64::MAX])
        }
        false => (vec![0, BLOCK], vec![0]),
    };
    let mut calls = vec![Call::Format, Call::Free, Call::Check];
    calls.extend(lists(free, held, lent_right));
    for id in [0, HELD, 8] {
        calls.extend([Call::Breaks { id }, Call::Remove { id }]);
        for &length in &lengths {
            calls.push(Call::Add { id, length, letter: STORED });
            calls.extend([b'M', STORED, b'?'].map(|letter| Call::Replace { id, length, letter }));
            calls.extend(firsts.iter().map(|&first| Call::Read { id, first, length }));
        }
    }
    calls
}

/// Calls of which. With buffers of the right lengths, blocks and places are all around their limits.
fn lists(free: usize, held: usize, lent_right: bool) -> Vec<Call> {
    let (counts, places) = match lent_right {
        true => {
            let counts = vec![0, 1, free, free + 1, free + held, free + held + 1, usize::MAX];
            (counts, vec![0, 1, MOST_FILES - 1, MOST_FILES, MOST_FILES + 1, 2 * MOST_FILES])
        }
        false => (vec![0, free + 1], vec![MOST_FILES]),
    };
    counts.iter().flat_map(|&n| places.iter().map(move |&places| Call::Which { n: n as u64, places })).collect()
}

//! Random histories, damage and limits: the twin's answers and all its bytes beside those of the proved manager.

mod sides;

use event_disk::Refusal;
use sides::any::{any_call, buffer_length, list_length};
use sides::numbers::Numbers;
use sides::{agree, Buffers, Call};
use std::collections::BTreeSet;
use twin::{Version, BLOCK, FITS_ALREADY};

/// A disk with its version and blocks, and the calls on it: ids below `ids`, contents up to `pages`.
struct Plan {
    version: Version,
    blocks: usize,
    ids: usize,
    pages: usize,
    calls: usize,
}

/// What a replacement was, or a call of breaks or which: refused with a number, or answered. Of the answers of breaks
/// and which "none" stands for itself, and so does "fits already"; all others are the same.
type Seen = BTreeSet<(&'static str, Result<u64, u8>)>;

/// A history on a fresh disk. The output and the list have other lengths and numbers before each call.
fn history(seed: u64, plan: Plan) -> Seen {
    let numbers = &mut Numbers(seed);
    let mut proved = Buffers::of(vec![7; plan.version.catalogue], vec![9; plan.blocks * BLOCK]);
    let mut twin = proved.clone();
    assert_eq!(agree(&Call::Format, &mut proved, &mut twin), Ok(plan.blocks as u64));
    let (mut answered, mut seen) = (0, Seen::new());
    for _ in 0..plan.calls {
        proved.out = vec![1; buffer_length(numbers, 4)];
        proved.list = vec![1; list_length(numbers)];
        twin.out.clone_from(&proved.out);
        twin.list.clone_from(&proved.list);
        let free = twin::free(&twin.cat).unwrap();
        let call = any_call(numbers, plan.ids, plan.pages, free);
        let answer = agree(&call, &mut proved, &mut twin);
        answered += usize::from(answer.is_ok());
        match call {
            Call::Breaks(..) => seen.insert(("breaks", answer.map(|n| n.min(1)))),
            Call::Replace(..) => seen.insert(("replace", answer.map(|_| 1))),
            Call::Which(..) => seen.insert(("which", answer.map(|n| if n == FITS_ALREADY { n } else { n.min(1) }))),
            _ => false,
        };
    }
    assert!(answered > plan.calls / 8, "only {answered} of {} calls were answered", plan.calls);
    seen
}

#[test]
fn on_histories_of_calls() {
    for version in Version::ALL {
        let plan = |blocks, ids, pages, calls| Plan { version, blocks, ids, pages, calls };
        let small = [1, 2, 3, 5, 16, 100, 261].map(|blocks| plan(blocks, 12, blocks.div_ceil(3), 1000));
        let more = [plan(261, 80, 7, 2000), plan(4095, 70, 130, 1500), plan(4096, 10, 1100, 200)];
        let plans = small.into_iter().chain(more).enumerate();
        let seen: Seen = plans.flat_map(|(seed, plan)| history(seed as u64, plan)).collect();
        let breaks = [Ok(0), Ok(1), Err(5), Err(6)].map(|answer| ("breaks", answer));
        let replaced = [Ok(1), Err(5), Err(6), Err(8), Err(11), Err(12), Err(13)].map(|answer| ("replace", answer));
        let which = [Ok(0), Ok(1), Ok(FITS_ALREADY), Err(8), Err(14)].map(|answer| ("which", answer));
        assert!(seen.into_iter().eq(breaks.into_iter().chain(replaced).chain(which)), "refusals and kinds of answers");
    }
}

#[test]
fn on_histories_of_large_disks() {
    let version = Version::LARGE;
    history(60, Plan { version, blocks: 4097, ids: 70, pages: 130, calls: 600 });
    history(61, Plan { version, blocks: 5000, ids: 12, pages: 1100, calls: 300 });
    history(62, Plan { version, blocks: 65_537, ids: 12, pages: 20_000, calls: 60 });
}

/// A disk of 100 blocks with five files.
fn five_files(version: Version, numbers: &mut Numbers) -> Buffers {
    let mut whole = Buffers::of(vec![0; version.catalogue], vec![0; 100 * BLOCK]);
    twin::format(&mut whole.cat, &whole.disk).unwrap();
    for id in [3, 5, 8, 11, 300] {
        let content = vec![id as u8; BLOCK * (1 + numbers.below(20))];
        twin::add(&mut whole.cat, &mut whole.disk, id, &content).unwrap();
    }
    whole
}

/// Catalogues with some of their bytes changed: mostly not sound, and refused by both.
#[test]
fn on_damaged_catalogues() {
    for version in Version::ALL {
        let numbers = &mut Numbers(77);
        let whole = five_files(version, numbers);
        let used = 60 * version.field;
        for _ in 0..5000 {
            let mut proved = whole.clone();
            for _ in 0..1 + numbers.below(2) {
                let at = if numbers.below(10) == 0 { numbers.below(version.catalogue) } else { numbers.below(used) };
                proved.cat[at] = if numbers.below(2) == 0 { numbers.below(9) as u8 } else { numbers.next() as u8 };
            }
            let mut twin = proved.clone();
            let call = any_call(numbers, 12, 20, 30);
            let _ = agree(&call, &mut proved, &mut twin);
        }
    }
}

/// Numbers at the ends of 4 bytes and of the greatest disk, in the place of each number of a catalogue.
#[test]
fn on_fields_at_their_ends() {
    let whole = five_files(Version::LARGE, &mut Numbers(78));
    for at in (0..240).step_by(2) {
        for number in [0, 1, 0x000f_ffff, 0x0010_0000, 0x0020_0000, 0x8000_0000, 0xffff_f800, u32::MAX] {
            let mut proved = whole.clone();
            proved.cat[at..at + 4].copy_from_slice(&number.to_be_bytes());
            let mut twin = proved.clone();
            let _ = agree(&Call::Free, &mut proved, &mut twin);
            let _ = agree(&Call::Which(1 << 16), &mut proved, &mut twin);
            let _ = agree(&Call::Replace(8, vec![b'R'; BLOCK]), &mut proved, &mut twin);
            let _ = agree(&Call::Remove(5), &mut proved, &mut twin);
        }
    }
}

/// 64 files of n blocks each, whose sum has more than 4 bytes. Each has a pair for each 1 of n, as far as the
/// catalogue reaches.
#[test]
fn on_64_files_of_far_too_many_blocks() {
    let version = Version::LARGE;
    let most = version.most_blocks as u32;
    for n in [u32::MAX, u32::MAX - 63, 0xffff_f800, 0x8000_0000, 0x0400_0000] {
        for pair in [[0, most], [u32::MAX, 1], [u32::MAX - 1, 0x8000_0000]] {
            let mut cat = [&version.number.to_be_bytes()[..], &most.to_be_bytes(), &64u16.to_be_bytes()].concat();
            for id in 1..=64u16 {
                cat.extend(id.to_be_bytes());
                cat.extend(n.to_be_bytes());
                cat.extend(pair.map(u32::to_be_bytes).concat().repeat(n.count_ones() as usize));
            }
            cat.resize(version.catalogue, 0);
            let mut proved = Buffers::of(cat, vec![0; 100 * BLOCK]);
            let mut twin = proved.clone();
            let replace = Call::Replace(1, vec![b'M'; BLOCK]);
            let (add, which) = (Call::Add(65, vec![0; BLOCK]), Call::Which(u64::MAX));
            for call in [Call::Free, Call::Breaks(64), Call::Remove(1), replace, add, which] {
                assert_eq!(agree(&call, &mut proved, &mut twin), Err(3));
            }
        }
    }
}

#[test]
fn on_buffers_of_other_lengths() {
    let (most, lengths) = (Version::SMALL.most_blocks, Version::ALL.map(|version| version.catalogue));
    for cat in lengths.into_iter().flat_map(|length| [length - 1, length, length + 1]).chain([0, 8192]) {
        for disk in [0, 1, BLOCK, 2 * BLOCK + 1, 16 * BLOCK, most * BLOCK, (most + 1) * BLOCK] {
            let mut proved = Buffers::of(vec![0; cat], vec![0; disk]);
            let mut twin = proved.clone();
            let (add, replace) = (Call::Add(1, vec![5; BLOCK]), Call::Replace(1, vec![b'D'; BLOCK]));
            for call in [Call::Check, Call::Format, Call::Check, add, replace, Call::Free, Call::Which(1)] {
                let _ = agree(&call, &mut proved, &mut twin);
            }
            proved.disk.resize(disk + BLOCK, 0);
            twin.disk.resize(disk + BLOCK, 0);
            let replace = Call::Replace(1, vec![b'M'; BLOCK]);
            for call in [Call::Check, Call::Remove(1), replace, Call::Add(2, vec![5; BLOCK]), Call::Read(1, 0)] {
                let _ = agree(&call, &mut proved, &mut twin);
            }
        }
    }
}

/// Disks of zero bytes take no memory: format and check only look at their length.
#[test]
fn on_the_greatest_disks() {
    for version in Version::ALL {
        for blocks in [version.most_blocks - 1, version.most_blocks, version.most_blocks + 1] {
            let (disk, mut proved) = (vec![0; blocks * BLOCK], vec![7; version.catalogue]);
            let mut twin = proved.clone();
            assert_eq!(twin::format(&mut twin, &disk), event_disk::format(&mut proved, &disk).map_err(Refusal::number));
            assert_eq!(twin, proved, "{blocks} blocks");
            assert_eq!(twin::check(&twin, &disk), event_disk::check(&proved, &disk).map_err(Refusal::number));
        }
    }
}

/// The number of another version, or of none, in a catalogue that is sound but for that.
#[test]
fn on_versions_that_do_not_suit_their_buffer() {
    for version in Version::ALL {
        let whole = five_files(version, &mut Numbers(79));
        for number in (0..=4).filter(|&number| number != version.number) {
            let mut proved = whole.clone();
            proved.cat[..2].copy_from_slice(&number.to_be_bytes());
            let mut twin = proved.clone();
            assert_eq!(agree(&Call::Check, &mut proved, &mut twin), Err(3));
            assert_eq!(agree(&Call::Remove(5), &mut proved, &mut twin), Err(3));
            assert_eq!(agree(&Call::Which(0), &mut proved, &mut twin), Err(3));
            assert_eq!(agree(&Call::Replace(5, vec![b'M'; BLOCK]), &mut proved, &mut twin), Err(3));
        }
    }
}

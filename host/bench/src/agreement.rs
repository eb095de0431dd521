//! All sides answer alike, so that the same work is timed.

use crate::builds::Build;
use crate::scene::Scene;
use crate::sides::{make, Call, Side};
use model::BlockMap;
use twin::BLOCK;

/// A block that has other bytes than before: its place and the bytes.
type Changed = (usize, [u8; BLOCK]);

/// What a call made of its buffers.
#[derive(PartialEq)]
struct Outcome {
    answer: Result<u64, u8>,
    cat: Vec<u8>,
    out: Vec<u8>,
    list: Vec<u16>,
    changed: Vec<Changed>,
}

impl Outcome {
    /// Whether the same files are left with the same pages, wherever they lie. That is what every build has to make of
    /// a removal: older ones may merge other free sections, so that the layout and the number of copies are others, or
    /// copy free blocks too, so that these have other bytes.
    fn has_files_of(&self, other: &Outcome, before: &[u8]) -> bool {
        let (ours, theirs) = (files(&self.cat), files(&other.cat));
        let same_pages = |(mine, its): (&usize, &usize)| self.block(*mine, before) == other.block(*its, before);
        let same = |((id, blocks), (other_id, others)): (&FileBlocks, &FileBlocks)| {
            id == other_id && blocks.len() == others.len() && blocks.iter().zip(others).all(same_pages)
        };
        ours.len() == theirs.len() && ours.iter().zip(&theirs).all(same)
    }

    /// Whether the breaks of a file are its pieces less one, as builds from before W5 count them, and all else is as in
    /// the other.
    fn counts_pieces(&self, id: u16, other: &Outcome) -> bool {
        let catalogue = model::sound(&self.cat).expect("a call leaves a sound catalogue");
        let breaks = catalogue.entry(id).map(|entry| entry.pairs.len() as u64 - 1);
        let same_bytes = (&self.cat, &self.out, &self.changed) == (&other.cat, &other.out, &other.changed);
        self.answer.ok() == breaks && same_bytes && self.list == other.list
    }

    /// The bytes of a block after the call.
    fn block<'a>(&'a self, place: usize, before: &'a [u8]) -> &'a [u8] {
        match self.changed.binary_search_by_key(&place, |changed| changed.0) {
            Ok(at) => &self.changed[at].1,
            Err(_) => &before[place * BLOCK..][..BLOCK],
        }
    }
}

/// The id of a file, and its blocks in page order.
type FileBlocks = (u16, Vec<usize>);

fn files(cat: &[u8]) -> Vec<FileBlocks> {
    let catalogue = model::sound(cat).expect("a call leaves a sound catalogue");
    let map = BlockMap::of(&catalogue);
    catalogue.entries.iter().map(|entry| (entry.id, map.pages(entry.id))).collect()
}

/// A build whose removal merges other free sections than the proved one, and so leaves another layout.
pub struct OtherLayout {
    pub build: &'static Build,
    /// The blocks that it copies.
    pub copied: u64,
}

/// Makes each call once on every side, all from the same bytes, and compares answers, catalogues, outputs, lists and
/// disks; of the removals and replacements of other builds the files that are left, and their breaks may be the pieces
/// less one. Answers which builds leave another layout.
pub fn sides_agree(scene: &mut Scene, builds: &[&'static Build]) -> Vec<OtherLayout> {
    let before = scene.disk.clone();
    let mut others = Vec::new();
    for call in Call::ALL {
        let proved = outcome(scene, Side::Proved, call, &before);
        for side in [Side::Twin, Side::Model] {
            same(side, call, outcome(scene, side, call, &before) == proved);
        }
        for &build in builds.iter().filter(|build| build.has(call)) {
            let other = outcome(scene, Side::Beside(build), call, &before);
            let as_before = match call {
                Call::Remove | Call::Replace => other.has_files_of(&proved, &before),
                Call::Breaks => other.counts_pieces(scene.facts.id, &proved),
                _ => false,
            };
            same(Side::Beside(build), call, other == proved || as_before);
            if call == Call::Remove && other.cat != proved.cat {
                others.push(OtherLayout { build, copied: other.answer.unwrap_or(0) });
            }
        }
    }
    others
}

fn same(side: Side, call: Call, agrees: bool) {
    assert!(agrees, "{} differs from the proved {}", side.name(), call.name());
}

/// What a side makes of a call. The disk is put back.
fn outcome(scene: &mut Scene, side: Side, call: Call, before: &[u8]) -> Outcome {
    let (start, mut lent) = scene.lend(call);
    let mut cat = start.to_vec();
    lent.out.fill(0);
    lent.list.fill(u16::MAX);
    let answer = make(side, call, &mut cat, &mut lent);
    assert!(answer.is_ok(), "{} refuses {}: {answer:?}", side.name(), call.name());
    let (out, list) = (lent.out.to_vec(), lent.list.to_vec());
    Outcome { answer, cat, out, list, changed: put_back(lent.disk, before) }
}

/// Gives the blocks their bytes back, and answers which had changed. A large disk is not copied as a whole for it.
fn put_back(disk: &mut [u8], before: &[u8]) -> Vec<Changed> {
    let mut changed = Vec::new();
    let blocks = disk.as_chunks_mut().0.iter_mut().zip(before.as_chunks().0);
    for (place, (block, old)) in blocks.enumerate().filter(|(_, (block, old))| block != old) {
        changed.push((place, *block));
        *block = *old;
    }
    changed
}

#[cfg(test)]
mod tests {
    use super::*;

    /// The pair of a file and the free pairs on a disk of 4 blocks: the file lies at (0,1), or at (2,1).
    const LOW: [u16; 6] = [0, 1, 1, 1, 2, 2];
    const HIGH: [u16; 6] = [2, 1, 0, 2, 3, 1];

    /// A removal that leaves these pairs, and changed these blocks of a disk of zero bytes to these bytes.
    fn removal(copied: u64, pairs: [u16; 6], changed: &[(usize, u8)]) -> Outcome {
        let fields = [1, 4, 1, 9, 1].into_iter().chain(pairs);
        let mut cat: Vec<u8> = fields.flat_map(u16::to_be_bytes).collect();
        cat.resize(twin::Version::SMALL.catalogue, 0);
        let changed = changed.iter().map(|&(place, byte)| (place, [byte; BLOCK])).collect();
        Outcome { answer: Ok(copied), cat, out: Vec::new(), list: Vec::new(), changed }
    }

    #[test]
    fn of_a_removal_only_the_files_are_compared_with_other_builds() {
        let right = removal(1, LOW, &[(0, 5), (2, 3)]);
        let agrees = |other: Outcome| other.has_files_of(&right, &[0; 4 * BLOCK]);
        assert!(agrees(removal(2, LOW, &[(0, 5), (2, 4)])), "other bytes in a free block");
        assert!(!agrees(removal(1, LOW, &[(0, 6), (2, 3)])), "another page");
        assert!(!agrees(removal(1, LOW, &[(2, 3)])), "no page");
        assert!(agrees(removal(3, HIGH, &[(2, 5)])), "the page elsewhere");
        assert!(!agrees(removal(3, HIGH, &[(0, 5), (2, 3)])), "another page elsewhere");
    }

    /// The file lies at (0,2) (2,1) on a disk of 4 blocks.
    #[test]
    fn the_breaks_of_other_builds_may_be_the_pieces_less_one() {
        let fields = [1, 4, 1, 9, 3, 0, 2, 2, 1, 3, 1];
        let mut cat: Vec<u8> = fields.into_iter().flat_map(u16::to_be_bytes).collect();
        cat.resize(twin::Version::SMALL.catalogue, 0);
        let breaks = |number, changed: &[Changed]| Outcome {
            answer: Ok(number),
            cat: cat.clone(),
            out: Vec::new(),
            list: Vec::new(),
            changed: changed.to_vec(),
        };
        assert_eq!(twin::breaks(&cat, 9), Ok(0));
        for number in 0..4 {
            assert_eq!(breaks(number, &[]).counts_pieces(9, &breaks(0, &[])), number == 1, "{number}");
        }
        assert!(!breaks(1, &[(3, [5; BLOCK])]).counts_pieces(9, &breaks(0, &[])), "a changed block");
    }

    #[test]
    fn changed_blocks_are_told_and_put_back() {
        let before = vec![5; 4 * BLOCK];
        let mut disk = before.clone();
        disk[2 * BLOCK + 7] = 6;
        let mut block = [5; BLOCK];
        block[7] = 6;
        assert_eq!(put_back(&mut disk, &before), [(2, block)]);
        assert_eq!(disk, before);
        assert_eq!(put_back(&mut disk, &before), []);
    }
}

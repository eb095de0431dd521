//! Divisions of blocks into pieces: the least number of pieces, found by search, all divisions that there are, and
//! those that a catalogue has, found by their sums. None of these is told how many pieces to expect.

use crate::reading::Fields;
use crate::Version;

/// The least number of powers of two that sum to each number from 0 to the most, by search: one of them is 1, 2, 4 or
/// any other that is not above the number, and the rest is summed by the least number for it.
pub fn least_pieces(most: usize) -> Vec<u32> {
    let mut least = vec![0];
    for n in 1..=most {
        let lengths = std::iter::successors(Some(1), |length| Some(2 * length)).take_while(|&length| length <= n);
        let others = lengths.map(|length| least[n - length]).min().expect("1 is not above n");
        least.push(1 + others);
    }
    least
}

/// All divisions of n blocks into pieces whose lengths are powers of two up to the longest, which is one itself. The
/// lengths of a division fall, or stay the same from one to the next.
pub fn all_divisions(n: u32, longest: u32) -> Vec<Vec<u32>> {
    if n == 0 {
        return vec![vec![]];
    }
    let with = n.checked_sub(longest).map_or(vec![], |rest| all_divisions(rest, longest));
    let without = if longest == 1 { vec![] } else { all_divisions(n, longest / 2) };
    with.into_iter().map(|rest| [vec![longest], rest].concat()).chain(without).collect()
}

/// Blocks, and the lengths of the pieces that they are divided into, in the order of their pairs.
#[derive(Clone, Debug, PartialEq, Eq)]
pub struct Division {
    pub blocks: u32,
    pub lengths: Vec<u32>,
}

/// The divisions of a catalogue, be it sound or not: those of the files in their order, and that of the free blocks
/// last. Each has the next pairs, up to the one with which their lengths sum to its blocks. Nothing if they never do,
/// if the files have more blocks than the disk, or if the version has no such disk.
pub fn divisions(cat: &[u8]) -> Option<Vec<Division>> {
    let mut fields = Fields { rest: cat };
    let version = Version::of_buffer(cat.len(), fields.short()?)?;
    let (mut free, files) = (fields.number(version.field)?, fields.short()?);
    if free as usize > version.most_blocks {
        return None;
    }
    let mut divisions = Vec::new();
    for _ in 0..files {
        let (_id, blocks) = (fields.short()?, fields.number(version.field)?);
        divisions.push(division(blocks, &mut fields, version)?);
        free = free.checked_sub(blocks)?;
    }
    divisions.push(division(free, &mut fields, version)?);
    Some(divisions)
}

/// The division of so many blocks whose pairs are next.
fn division(blocks: u32, fields: &mut Fields, version: Version) -> Option<Division> {
    let (mut lengths, mut rest) = (Vec::new(), blocks);
    while rest > 0 {
        let (_first, length) = (fields.number(version.field)?, fields.number(version.field)?);
        rest = rest.checked_sub(length)?;
        lengths.push(length);
    }
    Some(Division { blocks, lengths })
}

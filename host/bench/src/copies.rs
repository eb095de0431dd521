//! Block copies: a removal that copies as many blocks as it may, beside copies of the same blocks and nothing else.

use crate::builds::Build;
use crate::sides::Side;
use crate::spread::Spread;
use crate::timing::{interleaved, time_removal, Beside};
use std::hint::black_box;
use std::time::Instant;
use twin::{Version, BLOCK};

/// A page of memory, in bytes.
const PAGE: usize = 4096;
/// The version of the catalogues.
pub const VERSION: Version = Version::SMALL;

/// Bytes that start a given number of bytes past a page of memory: how fast a copy is depends on that.
struct Placed {
    bytes: Vec<u8>,
    start: usize,
    length: usize,
}

impl Placed {
    fn new(from: &[u8], past: usize) -> Placed {
        let mut bytes = vec![0; from.len() + PAGE + past];
        let start = bytes.as_ptr().align_offset(PAGE) + past;
        bytes[start..start + from.len()].copy_from_slice(from);
        Placed { bytes, start, length: from.len() }
    }

    fn get(&mut self) -> &mut [u8] {
        &mut self.bytes[self.start..self.start + self.length]
    }
}

/// A disk of 2^(top + 2) blocks with the files 1 of one block, 2 of 2^(top + 1) - 1 and 3 of one. Removing file 1
/// merges at every height from 0 to top, and copies either at every merge or at none.
struct Chain {
    cat: Vec<u8>,
    disk: Placed,
    copies: Vec<(usize, usize)>,
}

/// The pairs of a length for each height from 0 to top: in the lower half from block 1 up, each after the one before,
/// and in the upper half from its end down.
fn lower_pairs(top: u32) -> Vec<[u16; 2]> {
    (0..=top).map(|height| [1 << height, 1 << height]).collect()
}

fn upper_pairs(top: u32) -> Vec<[u16; 2]> {
    let end = 1u32 << (top + 2);
    (0..=top).rev().map(|height| [(end - (2 << height)) as u16, 1 << height]).collect()
}

impl Chain {
    fn new(top: u32, copying: bool, past: usize) -> Chain {
        let blocks = 1u16 << (top + 2);
        let (held, free) =
            if copying { (lower_pairs(top), upper_pairs(top)) } else { (upper_pairs(top), lower_pairs(top)) };
        let mut fields = vec![VERSION.number, blocks, 3, 1, 1, 0, 1, 2, blocks / 2 - 1];
        fields.extend(held.as_flattened());
        fields.extend([3, 1, blocks - 1, 1]);
        fields.extend(free.as_flattened());
        let mut cat: Vec<u8> = fields.iter().flat_map(|field| field.to_be_bytes()).collect();
        cat.resize(VERSION.catalogue, 0);
        let disk: Vec<u8> = (0..usize::from(blocks) * BLOCK).map(|i| (i / BLOCK) as u8).collect();
        let copies = model::removal_copies(&cat, &disk, 1).expect("the catalogue is sound");
        assert_eq!(copies.len(), if copying { usize::from(blocks) / 2 - 1 } else { 0 });
        Chain { cat, disk: Placed::new(&disk, past), copies }
    }

    /// The nanoseconds of the removal.
    fn time_removal(&mut self, side: Side) -> f64 {
        let (time, answer) = time_removal(side, &self.cat, self.disk.get());
        assert_eq!(answer, Ok(self.copies.len() as u64));
        time
    }

    /// The nanoseconds of the copies alone, block by block.
    fn time_copies(&mut self) -> f64 {
        let disk = self.disk.get();
        let clock = Instant::now();
        for &(from, to) in black_box(&self.copies) {
            disk.copy_within(from * BLOCK..(from + 1) * BLOCK, to * BLOCK);
        }
        black_box(disk);
        clock.elapsed().as_nanos() as f64
    }
}

/// Nanoseconds for each copied block.
pub struct Copies {
    pub blocks: usize,
    /// The bytes from a page of memory to the disk's first byte.
    pub past: usize,
    pub copied: usize,
    /// The removal that copies less the same one that does not: proved, twin, model.
    pub removals: [Spread; 3],
    /// `copy_within` for each block.
    pub alone: Spread,
    /// The proved removal's copies over the copies alone, and over the twin's.
    pub to_alone: Spread,
    pub to_twin: Spread,
    /// The removals of the builds that have the version.
    pub besides: Vec<Beside>,
}

/// Times the removals and the copies by turns, on a disk of 2^(top + 2) blocks that starts so many bytes past a page.
pub fn time_copies(top: u32, past: usize, builds: &[&'static Build], rounds: usize) -> Copies {
    let (mut copying, mut none) = (Chain::new(top, true, past), Chain::new(top, false, past));
    // the copies alone have no side
    let mut sides = vec![Some(Side::Proved), Some(Side::Twin), Some(Side::Model), None];
    sides.extend(builds.iter().map(|build| Some(Side::Beside(build))));
    let copied = copying.copies.len();
    let times = interleaved(sides.len(), rounds, |which| {
        let time = match sides[which] {
            Some(side) => copying.time_removal(side) - none.time_removal(side),
            None => copying.time_copies(),
        };
        time / copied as f64
    });
    Copies {
        blocks: 1 << (top + 2),
        past,
        copied,
        removals: [0, 1, 2].map(|side| Spread::of(times[side].clone())),
        alone: Spread::of(times[3].clone()),
        to_alone: Spread::of_ratios(&times[0], &times[3]),
        to_twin: Spread::of_ratios(&times[0], &times[1]),
        besides: Beside::of(builds, &times[4..], &times[0]),
    }
}

#[cfg(test)]
mod tests {
    use super::*;

    #[test]
    fn bytes_start_past_a_page() {
        for past in [0, 16] {
            let mut placed = Placed::new(&[7; 512], past);
            assert_eq!(placed.get(), [7; 512]);
            assert_eq!(placed.get().as_ptr() as usize % PAGE, past);
        }
    }
}

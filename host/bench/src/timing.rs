//! Rounds of timed batches, and what is made of their times.

use crate::builds::Build;
use crate::numbers::Numbers;
use crate::scene::Scene;
use crate::shape::Shape;
use crate::sides::{make, Call, Lent, Side};
use crate::spread::Spread;
use std::hint::black_box;
use std::time::Instant;

/// The most calls of a batch: each has its own catalogue, so that none has to be restored while the time runs.
pub const BATCH: usize = 16;
/// The most pages that the calls of a batch move together, where one call does not move more.
pub const BATCH_PAGES: usize = 1 << 16;
/// The first rounds fill caches and are not counted.
const WARM_UP: usize = 3;

/// The calls of a batch. At each call the second implementation may fill a map of all blocks, which count like pages,
/// and at a list one for each file.
pub fn batch_of(side: Side, call: Call, shape: &Shape) -> usize {
    let pages = call.pages(shape.file_blocks);
    let moved = match (side, call) {
        (Side::Model, Call::Which) => shape.files * shape.blocks,
        (Side::Model, _) => pages.max(shape.blocks),
        _ => pages,
    };
    (BATCH_PAGES / moved).clamp(1, BATCH)
}

/// The places of the stack at which rounds run: together their steps are longer than a page.
const PLACES: usize = 64;

/// Runs something with the stack so many steps of 64 bytes or more deeper.
#[inline(never)]
fn deeper(steps: usize, run: &mut dyn FnMut() -> f64) -> f64 {
    let room = black_box([0u8; 64]);
    let time = if steps == 0 { run() } else { deeper(steps - 1, run) };
    black_box(&room);
    time
}

/// Runs rounds in each of which every series has its turn. The order changes from round to round: what is in the caches
/// is left there by the series before. So does the place of the stack, by less than a page: a copy takes longer where
/// both its ends are at nearly the same distance from the start of a page. The times that `run` answers are collected
/// by series.
pub fn interleaved(series: usize, rounds: usize, mut run: impl FnMut(usize) -> f64) -> Vec<Vec<f64>> {
    let mut numbers = Numbers(series as u64);
    let mut order: Vec<usize> = (0..series).collect();
    let mut times = vec![Vec::with_capacity(rounds); series];
    for round in 0..WARM_UP + rounds {
        numbers.shuffle(&mut order);
        let place = numbers.below(PLACES);
        for &which in &order {
            let time = deeper(place, &mut || run(which));
            if round >= WARM_UP {
                times[which].push(time);
            }
        }
    }
    times
}

/// The catalogues and buffers of a batch of calls: each starts from the same catalogue, on the same disk.
pub struct Batch<'a> {
    call: Call,
    shape: Shape,
    start: &'a [u8],
    cats: Vec<Vec<u8>>,
    lent: Lent<'a>,
}

impl<'a> Batch<'a> {
    pub fn new(scene: &'a mut Scene, call: Call) -> Batch<'a> {
        let shape = scene.facts.shape;
        let (start, lent) = scene.lend(call);
        Batch { call, shape, start, cats: vec![start.to_vec(); BATCH], lent }
    }

    /// The nanoseconds of a call. Catalogues are restored before the clock starts; the bytes of the disk have no
    /// influence on what a call does, and stay, but for the one byte that a replacement goes by.
    pub fn time(&mut self, side: Side) -> f64 {
        let count = batch_of(side, self.call, &self.shape);
        let cats = &mut self.cats[..count];
        for cat in &mut *cats {
            cat.copy_from_slice(self.start);
        }
        let mut answered = true;
        let clock = Instant::now();
        for cat in cats {
            self.lent.put_letter();
            answered &= black_box(make(side, self.call, black_box(cat), &mut self.lent)).is_ok();
        }
        let time = clock.elapsed().as_nanos() as f64 / count as f64;
        assert!(answered, "{} refuses {}", side.name(), self.call.name());
        time
    }
}

/// The nanoseconds of one removal of the file with id 1, and its answer.
pub fn time_removal(side: Side, cat: &[u8], disk: &mut [u8]) -> (f64, Result<u64, u8>) {
    let mut cat = cat.to_vec();
    let mut lent = Lent { disk, raw: None, content: &[], out: &mut [], id: 1, wanted: 0, list: &mut [] };
    let clock = Instant::now();
    let answer = black_box(make(side, Call::Remove, black_box(&mut cat), &mut lent));
    (clock.elapsed().as_nanos() as f64, answer)
}

/// The times of another build.
pub struct Beside {
    pub build: &'static Build,
    /// The nanoseconds.
    pub time: Spread,
    /// The proved calls over those of the build.
    pub from_proved: Spread,
}

impl Beside {
    /// What is made of the series of the builds, in their order, beside that of the proved calls.
    pub fn of(builds: &[&'static Build], series: &[Vec<f64>], proved: &[f64]) -> Vec<Beside> {
        let beside = |(&build, times): (&&'static Build, &Vec<f64>)| Beside {
            build,
            time: Spread::of(times.clone()),
            from_proved: Spread::of_ratios(proved, times),
        };
        builds.iter().zip(series).map(beside).collect()
    }
}

/// The times of one call on one disk.
pub struct Row {
    pub scene: usize,
    pub call: Call,
    /// The nanoseconds of each side, in the order of `Side::ALL`.
    pub times: [Spread; 4],
    pub to_twin: Spread,
    pub to_model: Spread,
    pub to_itself: Spread,
    /// The builds that have the disk's version and the call.
    pub besides: Vec<Beside>,
}

/// Times a call on a disk, on every side and every build that has it by turns. The disk is the one at a place of the
/// tables.
pub fn time_call(scene: &mut Scene, place: usize, call: Call, builds: &[&'static Build], rounds: usize) -> Row {
    let builds: Vec<&'static Build> = builds.iter().copied().filter(|build| build.has(call)).collect();
    let mut batch = Batch::new(scene, call);
    let sides: Vec<Side> = Side::ALL.into_iter().chain(builds.iter().map(|build| Side::Beside(build))).collect();
    let times = interleaved(sides.len(), rounds, |side| batch.time(sides[side]));
    let [proved, twin, model, again] = [0, 1, 2, 3].map(|side| times[side].as_slice());
    Row {
        scene: place,
        call,
        times: [proved, twin, model, again].map(|series| Spread::of(series.to_vec())),
        to_twin: Spread::of_ratios(proved, twin),
        to_model: Spread::of_ratios(proved, model),
        to_itself: Spread::of_ratios(proved, again),
        besides: Beside::of(&builds, &times[Side::ALL.len()..], proved),
    }
}

#[cfg(test)]
mod tests {
    use super::*;

    #[test]
    fn every_series_has_its_turn_in_each_round() {
        let mut turns = Vec::new();
        let times = interleaved(3, 97, |which| {
            turns.push(which);
            which as f64
        });
        assert_eq!(times, [vec![0.0; 97], vec![1.0; 97], vec![2.0; 97]]);
        let rounds: Vec<&[usize]> = turns.chunks(3).collect();
        assert_eq!(rounds.len(), 97 + WARM_UP);
        assert!(rounds.iter().all(|round| (0..3).all(|series| round.contains(&series))));
        for order in [[0, 1, 2], [0, 2, 1], [1, 0, 2], [1, 2, 0], [2, 0, 1], [2, 1, 0]] {
            assert!(rounds.contains(&&order[..]), "{order:?}");
        }
    }

    #[test]
    fn calls_that_move_many_pages_have_smaller_batches() {
        let batch = |side, call, name| batch_of(side, call, &Shape::named(name).expect("it is a disk"));
        for small in ["261-8", "261-64", "4096-8", "4095-64"] {
            let mut one_map = Call::ALL.into_iter().filter(|&call| call != Call::Which);
            assert!(one_map.all(|call| batch(Side::Model, call, small) == BATCH));
        }
        let lists = ["261-8", "261-64", "4096-8", "4095-64"].map(|small| batch(Side::Model, Call::Which, small));
        assert_eq!(lists, [BATCH, 3, 2, 1]);
        assert_eq!(batch(Side::Twin, Call::Which, "1048576-64"), BATCH);
        assert_eq!(batch(Side::Twin, Call::Free, "1048576-8"), BATCH);
        assert_eq!(batch(Side::Twin, Call::Add, "1048576-8"), 1);
        assert_eq!(batch(Side::Twin, Call::Replace, "1048576-64"), 2);
        assert_eq!(batch(Side::Proved, Call::ReadFile, "1048576-64"), 4);
        assert_eq!(batch(Side::Model, Call::Free, "1048576-64"), 1);
    }
}

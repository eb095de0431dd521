//! A list of all removals beside one of them: how many times as long it takes, and how many it may.

use crate::scene::{Facts, Scene};
use crate::shape::Shape;
use crate::sides::{Call, Side};
use crate::spread::Spread;
use crate::timing::{interleaved, Batch};

/// The list of 64 files may take so many times as long as a single removal, where the catalogue has as many pairs as
/// the small one can have.
pub const LIMIT: f64 = 10.0;
const LIMITED: &str = "4095-64";

/// Whether lists are timed beside a removal on a disk: where a list has the most files.
pub fn is_timed(shape: &Shape) -> bool {
    shape.files == twin::MOST_FILES
}

/// The times of one side.
pub struct Times {
    /// The nanoseconds of the list and of the removal.
    pub list: Spread,
    pub removal: Spread,
    /// The list over the removal, taken round by round.
    pub ratio: Spread,
}

/// The list of all files of a disk beside the removal of one: that which copies most.
pub struct Listing {
    pub facts: Facts,
    pub proved: Times,
    pub twin: Times,
}

impl Listing {
    /// Times both calls on both sides by turns.
    pub fn time(scene: &mut Scene, rounds: usize) -> Listing {
        let of_side = |side| [(side, Call::Which), (side, Call::Remove)];
        let series = [of_side(Side::Proved), of_side(Side::Twin)].concat();
        let times = interleaved(series.len(), rounds, |place| {
            let (side, call) = series[place];
            Batch::new(scene, call).time(side)
        });
        let times_of = |list: usize| Times {
            list: Spread::of(times[list].clone()),
            removal: Spread::of(times[list + 1].clone()),
            ratio: Spread::of_ratios(&times[list], &times[list + 1]),
        };
        Listing { facts: scene.facts, proved: times_of(0), twin: times_of(2) }
    }

    /// Whether the disk is the one with the limit.
    pub fn is_limited(&self) -> bool {
        self.facts.shape.name == LIMITED
    }

    /// What is wrong if the proved list takes longer than it may.
    pub fn check(&self) -> Result<(), String> {
        let ratio = self.proved.ratio.median;
        match self.is_limited() && ratio > LIMIT {
            true => Err(format!("a list of all removals takes {ratio:.2} times as long as a removal, not {LIMIT}")),
            false => Ok(()),
        }
    }
}

#[cfg(test)]
mod tests {
    use super::*;

    fn listing(name: &str, ratio: f64) -> Listing {
        let shape = Shape::named(name).expect("it is a disk");
        let spread = |median| Spread { low: median, median, high: median };
        let times = |ratio| Times { list: spread(ratio), removal: spread(1.0), ratio: spread(ratio) };
        Listing { facts: Facts { shape, copied: 0, id: 1 }, proved: times(ratio), twin: times(1.0) }
    }

    #[test]
    fn a_list_that_takes_too_long_is_told() {
        assert_eq!(listing(LIMITED, 10.0).check(), Ok(()));
        assert!(listing(LIMITED, 10.1).check().is_err_and(|what| what.contains("10.10 times")));
        assert_eq!(listing("261-64", 10.1).check(), Ok(()));
    }

    /// The disk with the limit has 64 files and 390 pairs, and its list takes no longer than it may.
    #[test]
    fn the_list_of_all_removals_takes_at_most_ten_removals() {
        let shape = Shape::named(LIMITED).expect("it is a disk");
        assert_eq!((is_timed(&shape), shape.files, shape.pairs()), (true, 64, 390));
        let listing = Listing::time(&mut Scene::used(shape), 51);
        assert!(listing.is_limited() && listing.proved.ratio.median > 0.0);
        assert_eq!(listing.check(), Ok(()));
    }
}

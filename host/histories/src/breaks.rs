//! The breaks of a file beside the drive that reads it, and how often they were what.

use event_disk::most_breaks;
use model::{Answer, BlockMap};

use crate::both::{told, Difference};
use crate::fewest::least;
use crate::watch::require;

/// How often the drive seeks between the first of these blocks and the last: after each it stands at the next block.
fn seeks(blocks: impl IntoIterator<Item = usize>) -> u64 {
    let (mut seeks, mut head) = (0, None);
    for block in blocks {
        seeks += u64::from(head.is_some_and(|head| head != block));
        head = Some(block + 1);
    }
    seeks
}

/// An answer is right if it is the seeks of the drive. The wrapper's account of the file is compared too: its breaks,
/// and its reads, which are one more and have the blocks of the pages in their order.
pub fn compare_breaks(cat: &[u8], id: u16, answer: Answer) -> Result<(), Difference> {
    let pages = model::sound(cat).map_or(Vec::new(), |catalogue| BlockMap::of(&catalogue).pages(id));
    let seeks = seeks(pages.iter().copied());
    require(answer == Ok(seeks), || format!("{} beside a drive that seeks {seeks} times", told(answer)))?;
    let listing = event_disk::list(cat).map_err(|why| format!("it is not listed: {why}"))?;
    let file = listing.files.iter().find(|file| file.id == id).ok_or("the file is not listed")?;
    let reads = file.reads();
    require(u64::from(file.breaks) == seeks && reads.len() as u64 == seeks + 1, || {
        format!("{} reads and {} breaks are listed, and the drive seeks {seeks} times", reads.len(), file.breaks)
    })?;
    let read: Vec<usize> = reads.iter().flat_map(|read| read.blocks().range()).collect();
    require(read == pages, || "the reads have not the blocks of the pages in their order".into())
}

/// The limit on the breaks of a file of some pages, found in three ways: the ones of their number less one, what the
/// wrapper says, and the least number of pieces less one.
fn limits(pages: u64) -> [u64; 3] {
    [u64::from(pages.count_ones()) - 1, u64::from(most_breaks(pages as u32)), least(pages) - 1]
}

/// Whether so many breaks are within limits that do not differ.
fn within(breaks: u64, limits: [u64; 3]) -> bool {
    limits == [limits[0]; 3] && breaks <= limits[0]
}

/// A file of some pages has to be read in at most as many reads as is the least number of its pieces: it may have one
/// break less than that.
pub fn compare_limits(breaks: u64, pages: u64) -> Result<(), Difference> {
    let limits = limits(pages);
    require(within(breaks, limits), || format!("{breaks} breaks, where the limits for {pages} pages are {limits:?}"))
}

/// Counts of breaks that were answered, for files that may have one.
#[derive(Clone, Copy, Default)]
pub struct Breaks {
    /// There was none, there were some, and there were as many as there may be.
    none: u64,
    some: u64,
    pub most: u64,
    /// The most of one file.
    greatest: u64,
}

impl Breaks {
    /// Counts an answer for a file with a limit.
    pub fn note(&mut self, breaks: u64, limit: u64) {
        let counted = |is: bool| u64::from(is && limit > 0);
        *self = self.with(Breaks {
            none: counted(breaks == 0),
            some: counted(0 < breaks && breaks < limit),
            most: counted(breaks == limit),
            greatest: breaks,
        });
    }

    /// These and others.
    pub fn with(self, other: Breaks) -> Breaks {
        Breaks {
            none: self.none + other.none,
            some: self.some + other.some,
            most: self.most + other.most,
            greatest: self.greatest.max(other.greatest),
        }
    }

    /// How often there were fewer than there may be.
    pub fn fewer(&self) -> u64 {
        self.none + self.some
    }

    /// Prints all counts.
    pub fn print(&self) {
        let Breaks { none, some, most, greatest } = self;
        println!("  of breaks, where there may be one: {none} times there was none, {some} times there were some,");
        println!("  {most} times as many as there may be; at most {greatest} in a file");
    }
}

#[cfg(test)]
mod tests {
    use model::{Version, BLOCK};

    use super::*;

    #[test]
    fn the_drive_seeks_where_it_does_not_stand() {
        for (blocks, right) in [
            (&[][..], 0),
            (&[7], 0),
            (&[0, 1, 2], 0),
            (&[4, 5, 3], 1),
            (&[0, 1, 2, 3, 14, 15, 13], 2),
            (&[4, 5, 6, 7, 2, 3, 0], 2),
            (&[2, 1, 0], 2),
            (&[3, 3], 1),
            (&[0, 2], 1),
        ] {
            assert_eq!(seeks(blocks.iter().copied()), right, "{blocks:?}");
        }
    }

    /// Of 16 blocks id 5 is at (0,2) (2,1), id 6 at (4,2) (3,1) and id 7 at (8,4) (6,2).
    #[test]
    fn another_number_is_seen() {
        let (mut cat, mut disk) = (vec![0; Version::SMALL.catalogue], vec![0; 16 * BLOCK]);
        model::format(&mut cat, &disk).expect("it is a disk");
        for (id, pages) in [(5, 3), (6, 3), (7, 6)] {
            model::add(&mut cat, &mut disk, id, &vec![0; pages * BLOCK]).expect("there is space");
        }
        for (id, right) in [(5, 0), (6, 1), (7, 1)] {
            for breaks in 0..3 {
                assert_eq!(compare_breaks(&cat, id, Ok(breaks)).is_ok(), breaks == right, "{breaks} of {id}");
            }
            assert!(compare_breaks(&cat, id, Err(6)).is_err());
        }
        let pieces_less_one = compare_breaks(&cat, 5, Ok(1)).expect_err("they adjoin");
        assert_eq!(pieces_less_one, "answer 1 beside a drive that seeks 0 times");
    }

    #[test]
    fn breaks_of_each_kind_are_counted() {
        let mut breaks = Breaks::default();
        for (number, limit) in [(0, 0), (0, 1), (1, 1), (0, 2), (1, 2), (2, 2), (5, 9)] {
            breaks.note(number, limit);
        }
        let twice @ Breaks { none, some, most, greatest } = breaks.with(breaks);
        assert_eq!([none, some, twice.fewer(), most, greatest], [4, 4, 8, 4, 5]);
    }

    #[test]
    fn the_limit_is_the_ones_less_one() {
        assert_eq!([1, 3, 10, 4095, 1 << 20].map(limits), [0, 1, 1, 11, 0].map(|limit| [limit; 3]));
    }

    /// An answer past any of the limits is seen, and limits that differ are, whatever is answered.
    #[test]
    fn each_limit_is_of_account() {
        assert!(within(0, [0; 3]) && !within(1, [0; 3]) && within(2, [2; 3]) && !within(3, [2; 3]));
        for limits in [[3, 2, 2], [2, 3, 2], [2, 2, 3], [1, 2, 2], [2, 1, 2], [2, 2, 1]] {
            assert!((0..4).all(|breaks| !within(breaks, limits)), "{limits:?}");
        }
        assert_eq!(compare_limits(1, 3), Ok(()));
        let told = "2 breaks, where the limits for 3 pages are [1, 1, 1]";
        assert_eq!(compare_limits(2, 3), Err(told.to_string()));
    }
}

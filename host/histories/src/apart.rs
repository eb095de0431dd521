//! What a call stands for, made apart from it: a replacement is a removal and an add, breaks are the seeks of the
//! drive, and a list is that of removals.

use model::Answer;

use crate::both::{told, Difference};
use crate::breaks::compare_breaks;
use crate::call::{Call, Lent};
use crate::guarded::compare_from;
use crate::listed::compare_listed;
use crate::sides::Side;
use crate::watch::require;

/// What was made apart from a call before it, or is to be made after it.
pub enum Apart {
    Nothing,
    Replacement(TwoCalls),
    Breaks { id: u16 },
    List { n: u64, places: usize },
}

impl Apart {
    /// Before a call that is going to be answered like that. A replacement may be refused for space too.
    pub fn before(call: &Call, answer: Answer, side: &Side, lent: Lent, content: &[u8]) -> Apart {
        let (cat, disk) = (side.cat.lent(lent.cat), side.disk.lent(lent.disk));
        match (*call, answer) {
            (Call::Replace { id, .. }, Ok(_) | Err(11)) => Apart::Replacement(TwoCalls::make(cat, disk, id, content)),
            (Call::Breaks { id }, Ok(_)) => Apart::Breaks { id },
            (Call::Which { n, places }, Ok(_)) => Apart::List { n, places },
            _ => Apart::Nothing,
        }
    }

    /// The answer of the call, and the buffers after it, beside what was made apart.
    pub fn compare(&self, answer: Answer, side: &Side, lent: Lent) -> Result<(), Difference> {
        let (cat, disk) = (side.cat.lent(lent.cat), side.disk.lent(lent.disk));
        match self {
            Apart::Nothing => Ok(()),
            Apart::Replacement(calls) => calls.compare(answer, cat, disk),
            Apart::Breaks { id } => compare_breaks(cat, *id, answer),
            Apart::List { n, places } => compare_listed(cat, *n, answer, side.list.lent(*places)),
        }
    }
}

/// A removal and then an add by the second implementation: their answers, and the bytes that they leave.
pub struct TwoCalls {
    cat: Vec<u8>,
    disk: Vec<u8>,
    removed: Answer,
    added: Answer,
}

impl TwoCalls {
    /// Makes the two calls on copies of a catalogue and a disk.
    fn make(cat: &[u8], disk: &[u8], id: u16, content: &[u8]) -> TwoCalls {
        let (mut cat, mut disk) = (cat.to_vec(), disk.to_vec());
        let removed = model::remove(&mut cat, &mut disk, id);
        let added = model::add(&mut cat, &mut disk, id, content);
        TwoCalls { cat, disk, removed, added }
    }

    /// A replacement gives the number of the removal and leaves the bytes after both calls. It is refused for space
    /// only if the add is. This is the answer of the replacement, and the bytes after it.
    fn compare(&self, answer: Answer, cat: &[u8], disk: &[u8]) -> Result<(), Difference> {
        let TwoCalls { removed, added, .. } = self;
        let both = || format!("a removal apart gave {}, and the add after it {}", told(*removed), told(*added));
        match answer {
            Ok(_) => {
                require(answer == *removed && added.is_ok(), both)?;
                compare_from(0, "catalogue beside a removal and an add", cat, &self.cat)?;
                compare_from(0, "disk beside a removal and an add", disk, &self.disk)
            }
            Err(11) => require(removed.is_ok() && *added == Err(11), both),
            Err(_) => Ok(()),
        }
    }
}

#[cfg(test)]
mod tests {
    use model::{Version, BLOCK};

    use super::*;

    /// A disk of 5 blocks with id 1 at (4,1) and id 2 at (0,1): the removal of 1 copies a block.
    fn two_files() -> (Vec<u8>, Vec<u8>) {
        let (mut cat, mut disk) = (vec![0; Version::SMALL.catalogue], vec![9; 5 * BLOCK]);
        model::format(&mut cat, &disk).expect("it is a disk");
        for id in [1, 2] {
            model::add(&mut cat, &mut disk, id, &[id as u8; BLOCK]).expect("there is space");
        }
        (cat, disk)
    }

    #[test]
    fn another_number_and_other_bytes_are_seen() {
        let (mut cat, mut disk) = two_files();
        let content = [b'R'; 2 * BLOCK];
        let apart = TwoCalls::make(&cat, &disk, 1, &content);
        assert!(apart.compare(Ok(1), &cat, &disk).is_err(), "nothing was done");
        assert_eq!(model::replace(&mut cat, &mut disk, 1, &content), Ok(1));
        assert_eq!(apart.compare(Ok(1), &cat, &disk), Ok(()));
        for answer in [Ok(0), Ok(2), Err(11)] {
            assert!(apart.compare(answer, &cat, &disk).is_err(), "{answer:?}");
        }
        disk[3 * BLOCK] ^= 1;
        assert!(apart.compare(Ok(1), &cat, &disk).is_err(), "a byte of a free block");
    }

    #[test]
    fn a_refusal_for_space_is_that_of_the_add() {
        let (cat, disk) = two_files();
        let refused = |pages: usize| TwoCalls::make(&cat, &disk, 1, &vec![b'R'; pages * BLOCK]);
        assert_eq!(refused(5).compare(Err(11), &cat, &disk), Ok(()));
        assert!(refused(4).compare(Err(11), &cat, &disk).is_err());
        assert!(refused(5).compare(Ok(1), &cat, &disk).is_err());
    }
}

//! The buffers of one implementation, and its calls on them.

use event_disk::Which;
use model::{Answer, Version, BLOCK, FITS_ALREADY};

use crate::call::{Call, Lent};
use crate::guarded::Guarded;
use crate::merges::Merges;

/// The longest catalogue buffer that is lent.
const LONGEST_CATALOGUE: usize = 2 * Version::LARGE.catalogue;
/// What catalogue and disk have beside the lent bytes.
const BESIDE: u8 = 0xA7;
/// What outputs hold before a read.
const UNREAD: u8 = 0xEE;
/// What lists hold before ids are written to them.
const UNLISTED: u16 = 0xEDED;

/// The buffers of one implementation.
pub struct Side {
    pub cat: Guarded,
    pub disk: Guarded,
    pub out: Guarded,
    pub list: Guarded<u16>,
}

impl Side {
    /// Buffers for at most so many blocks.
    pub fn new(most_blocks: usize) -> Side {
        let cat = Guarded::of(BESIDE, LONGEST_CATALOGUE);
        let disk = Guarded::of(BESIDE, most_blocks * BLOCK);
        Side { cat, disk, out: Guarded::default(), list: Guarded::default() }
    }

    /// Makes the output and the list of a call have their right lengths, and the marks that nothing was written.
    pub fn clear_outputs(&mut self, call: &Call) {
        self.out.clear(UNREAD, call.output_length());
        self.list.clear(UNLISTED, call.places());
    }

    /// Whether output and list have all their marks.
    pub fn is_unwritten(&self) -> bool {
        self.out.has_only(UNREAD) && self.list.has_only(UNLISTED)
    }

    /// What a call merges if it is answered, as the second implementation has it.
    pub fn merges(&self, call: &Call, lent: Lent) -> Merges {
        match call.removed() {
            Some(id) => Merges::of(self.cat.lent(lent.cat), self.disk.lent(lent.disk), id),
            None => Merges::default(),
        }
    }

    /// Makes a call of the second implementation.
    pub fn call_model(&mut self, call: &Call, lent: Lent, content: &[u8]) -> Answer {
        let (cat, disk) = (self.cat.lent_mut(lent.cat), self.disk.lent_mut(lent.disk));
        match *call {
            Call::Format => model::format(cat, disk),
            Call::Add { id, .. } => model::add(cat, disk, id, content),
            Call::Remove { id } => model::remove(cat, disk, id),
            Call::Replace { id, .. } => model::replace(cat, disk, id, content),
            Call::Read { id, first, length } => model::read(cat, disk, id, first, self.out.lent_mut(length)),
            Call::Breaks { id } => model::breaks(cat, id),
            Call::Free => model::free(cat),
            Call::Check => model::check(cat, disk),
            Call::Which { n, places } => model::which(cat, n, self.list.lent_mut(places)),
        }
    }

    /// Makes a call of the proved manager.
    pub fn call_proved(&mut self, call: &Call, lent: Lent, content: &[u8]) -> Answer {
        let (cat, disk) = (self.cat.lent_mut(lent.cat), self.disk.lent_mut(lent.disk));
        let answer = match *call {
            Call::Format => event_disk::format(cat, disk),
            Call::Add { id, .. } => event_disk::add(cat, disk, id, content),
            Call::Remove { id } => event_disk::remove(cat, disk, id),
            Call::Replace { id, .. } => event_disk::replace(cat, disk, id, content),
            Call::Read { id, first, length } => event_disk::read(cat, disk, id, first, self.out.lent_mut(length)),
            Call::Breaks { id } => event_disk::breaks(cat, id),
            Call::Free => event_disk::free(cat),
            Call::Check => event_disk::check(cat, disk),
            Call::Which { n, places } => event_disk::which(cat, n, self.list.lent_mut(places)).map(number),
        };
        answer.map_err(|refusal| refusal.number())
    }
}

/// The number of an answer of which.
fn number(answer: Which) -> u64 {
    match answer {
        Which::FitsAlready => FITS_ALREADY,
        Which::Removals(count) => count as u64,
    }
}

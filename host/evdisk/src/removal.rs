//! A removal in numbers: what it copies, and what the contract lets it copy.

use crate::json::Json;
use event_disk::{carries, File as Event, Listing, Refusal};

/// A removal, or that of a replacement.
#[derive(Clone, Copy, Debug, PartialEq, Eq)]
pub struct Removal {
    /// The file's id.
    pub id: u16,
    /// The blocks of the file that is removed.
    pub blocks: u64,
    /// The blocks that the removal copies.
    pub copied: u64,
    /// The most that the contract lets it copy.
    pub limit: u64,
}

impl Removal {
    /// The removal of an event that is listed, which copied so many blocks.
    pub fn of(before: &Listing, id: u16, copied: u64) -> Removal {
        let blocks = u64::from(event(before, id).blocks);
        Removal { id, blocks, copied, limit: carries(u64::from(before.free), blocks) }
    }

    /// What the removal of an event would be, by the catalogue and what it lists. It is made on a copy of the
    /// catalogue, and on as many zeros as the disk has bytes: how many blocks are copied does not go by what they
    /// hold, and zeros stay zeros.
    pub fn tried(catalogue: &[u8], listing: &Listing, zeros: &mut [u8], id: u16) -> Result<Removal, Refusal> {
        let copied = event_disk::remove(&mut catalogue.to_vec(), zeros, id)?;
        Ok(Removal::of(listing, id, copied))
    }

    /// The numbers for scripts.
    pub fn json(&self) -> Vec<(&'static str, Json)> {
        vec![
            ("id", Json::number(self.id)),
            ("blocks", Json::number(self.blocks)),
            ("copied", Json::number(self.copied)),
            ("limit", Json::number(self.limit)),
        ]
    }
}

/// The event with an id that is known to be there.
pub fn event(listing: &Listing, id: u16) -> &Event {
    listing.files.iter().find(|event| event.id == id).expect("the call answered, so the id is there")
}

#[cfg(test)]
mod tests {
    use super::*;
    use event_disk::{Version, BLOCK};

    #[test]
    fn a_removal_that_is_tried_is_the_one_that_is_made_and_changes_nothing() {
        for version in Version::ALL {
            let (mut catalogue, mut disk) = (vec![0; version.catalogue], vec![0; 16 * BLOCK]);
            event_disk::format(&mut catalogue, &disk).expect("a disk");
            for (id, pages) in [(5, 3), (9, 1), (2, 2)] {
                event_disk::add(&mut catalogue, &mut disk, id, &vec![7; pages * BLOCK]).expect("there is space");
            }
            let (before, mut zeros) = (catalogue.clone(), vec![0; disk.len()]);
            let listing = event_disk::list(&catalogue).expect("a sound catalogue");
            let mut try_it = |id| Removal::tried(&catalogue, &listing, &mut zeros, id);
            let tried = try_it(5).expect("it is there");
            assert_eq!(tried, Removal { id: 5, blocks: 3, copied: 1, limit: 2 });
            assert_eq!(try_it(5), Ok(tried), "once more, on the same zeros");
            assert_eq!(try_it(7), Err(Refusal::IdMissing));
            assert!(catalogue == before && zeros == vec![0; disk.len()]);
            assert_eq!(event_disk::remove(&mut catalogue, &mut disk, 5), Ok(tried.copied));
        }
    }
}

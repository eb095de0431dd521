//! Which removals would make room for an event: the command that lists them, and what an add that finds no space says
//! of them.

use crate::arguments::Arguments;
use crate::changing::say;
use crate::event_file::EventFile;
use crate::json::Json;
use crate::removal::Removal;
use crate::store::{Disk, Store};
use crate::table::{self, counted};
use crate::Failure;
use event_disk::{Refusal, Which, BLOCK, MOST_FILES};

/// The ids of the events of which any one has to be removed so that so many blocks are free, in the manager's order.
/// There is no such list if they are free already.
fn ids(catalogue: &[u8], blocks: u64) -> Result<Option<Vec<u16>>, Refusal> {
    let mut places = [0; MOST_FILES];
    Ok(match event_disk::which(catalogue, blocks, &mut places)? {
        Which::FitsAlready => None,
        Which::Removals(count) => Some(places[..count].to_vec()),
    })
}

/// `evdisk which`.
pub fn which(arguments: &Arguments, out: &mut Vec<u8>) -> Result<(), Failure> {
    let asked = arguments.blocks()?;
    let catalogue = Store::to_look(arguments.paths())?.catalogue()?;
    let blocks = match asked {
        Some(blocks) => blocks,
        None => needed(arguments, &catalogue)?,
    };
    let ids = ids(&catalogue, blocks)?;
    let listing = event_disk::list(&catalogue)?;
    let mut zeros = vec![0; listing.blocks as usize * BLOCK];
    let mut tried = |id| Removal::tried(&catalogue, &listing, &mut zeros, id);
    let removals = ids.map(|ids| ids.into_iter().map(&mut tried).collect()).transpose()?;
    let room = Room { blocks, free: listing.free, removals };
    say(arguments, out, &room.words(), room.json())
}

/// The blocks that the event in a file needs.
fn needed(arguments: &Arguments, catalogue: &[u8]) -> Result<u64, Failure> {
    let path = arguments.option_file("--file").expect("it stands if no number does");
    let most = event_disk::list(catalogue).map_or(0, |listing| listing.blocks);
    EventFile::open(&path)?.blocks(0, most.into())
}

/// What makes room for an event.
struct Room {
    /// The blocks that the event needs.
    blocks: u64,
    /// The blocks that are free.
    free: u32,
    /// The removals that are each enough, unless the event fits already.
    removals: Option<Vec<Removal>>,
}

impl Room {
    /// In words: a table of the removals, and what they are good for.
    fn words(&self) -> String {
        let (needed, free) = (counted(self.blocks, "block"), self.free);
        match self.removals.as_deref() {
            None => format!("an event of {needed} fits already ({free} free)"),
            Some([]) => format!("no single removal would make room for {needed} ({free} free)"),
            Some(removals) => {
                let which = if removals.len() == 1 { "this removal" } else { "any one of these removals" };
                format!("{}{which} would make room for {needed} ({free} free)", table::removals(removals))
            }
        }
    }

    /// For scripts.
    fn json(&self) -> Json {
        let removals = self.removals.iter().flatten().map(|removal| Json::Object(removal.json()));
        Json::Object(vec![
            ("blocks", Json::number(self.blocks)),
            ("free", Json::number(self.free)),
            ("fits", Json::Truth(self.removals.is_none())),
            ("removals", Json::List(removals.collect())),
        ])
    }
}

/// The failure of an add that found no space for so many blocks: what would make room is added to it. No block of the
/// disk has been read.
pub fn no_space(disk: &mut Disk, blocks: u64) -> Failure {
    let refused = Failure::from(Refusal::NoSpace);
    let Ok(Some(ids)) = ids(&disk.catalogue, blocks) else { return refused };
    let Ok(listing) = event_disk::list(&disk.catalogue) else { return refused };
    match ids.first().map(|id| Removal::tried(&disk.catalogue, &listing, &mut disk.blocks, *id)) {
        None => refused.and("no single removal would make room"),
        Some(Ok(Removal { id, copied, .. })) => {
            refused.and(&format!("removing {id} would make room ({} copied)", counted(copied, "block")))
        }
        Some(Err(_)) => refused,
    }
}

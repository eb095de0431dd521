//! The command that puts a reviewed event in the place of the raw one: a removal and an add in one step.

use crate::arguments::Arguments;
use crate::changing::{say, shift};
use crate::event_file::EventFile;
use crate::json::Json;
use crate::places::lying;
use crate::removal::event;
use crate::store::Store;
use crate::table::copies;
use crate::Failure;

/// `evdisk replace`.
pub fn replace(arguments: &Arguments, out: &mut Vec<u8>) -> Result<(), Failure> {
    let id = arguments.id()?;
    let store = Store::to_change(arguments.paths())?;
    let content = EventFile::open(arguments.file())?.content(room(&store.catalogue()?, id))?;
    let call = |cat: &mut [u8], blocks: &mut [u8]| event_disk::replace(cat, blocks, id, &content);
    let (removal, after) = shift(&store, id, call)?;
    let new = event(&after, id);
    let words = format!("replaced {id}: {}; {}", copies(&removal), lying(new));
    let json = [
        ("id", Json::number(id)),
        ("blocks", Json::number(new.blocks)),
        ("replaced", Json::number(removal.blocks)),
        ("copied", Json::number(removal.copied)),
        ("limit", Json::number(removal.limit)),
        ("breaks", Json::number(new.breaks)),
        ("pieces", Json::pieces(&new.in_page_order())),
    ];
    say(arguments, out, &words, Json::Object(json.into()))
}

/// The most blocks that an event in the place of this one can have: those that are free, and its own. A catalogue that
/// is refused has none.
fn room(catalogue: &[u8], id: u16) -> u64 {
    event_disk::list(catalogue).map_or(0, |listing| {
        let old = listing.files.iter().find(|event| event.id == id).map_or(0, |event| event.blocks);
        u64::from(listing.free + old)
    })
}

#[cfg(test)]
mod tests {
    use super::*;
    use event_disk::{Version, BLOCK};

    #[test]
    fn the_room_for_an_event_is_the_free_blocks_and_those_of_the_old_one() {
        for version in Version::ALL {
            let (mut catalogue, mut disk) = (vec![0; version.catalogue], vec![0; 16 * BLOCK]);
            event_disk::format(&mut catalogue, &disk).expect("a disk");
            for (id, pages) in [(5, 3), (9, 1)] {
                event_disk::add(&mut catalogue, &mut disk, id, &vec![0; pages * BLOCK]).expect("there is space");
            }
            assert_eq!((room(&catalogue, 5), room(&catalogue, 9), room(&catalogue, 7)), (15, 13, 12));
            catalogue[0] = 1;
            assert_eq!((room(&catalogue, 5), room(&catalogue[1..], 5)), (0, 0));
        }
    }
}

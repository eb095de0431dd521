//! The commands that only look at a disk: read, list, breaks, free, check, map and log.

use crate::arguments::Arguments;
use crate::changing::{blocks_json, say};
use crate::json::Json;
use crate::removal::event;
use crate::shift_log::Line;
use crate::store::Store;
use crate::table::{self, blocks_of, counted};
use crate::{files, map, shift_log, svg, Failure};
use event_disk::{most_breaks, BLOCK};
use std::io::IsTerminal;
use std::path::Path;

/// `evdisk read`.
pub fn read(arguments: &Arguments, out: &mut Vec<u8>) -> Result<(), Failure> {
    let id = arguments.id()?;
    let first = arguments.number("--first")?.unwrap_or(0);
    let asked = arguments.number("--pages")?;
    let mut content = pages(&Store::to_look(arguments.paths())?, id, first, asked)?;
    match arguments.option_file("--output") {
        Some(path) => files::write_new(&path, &content),
        None => {
            out.append(&mut content);
            Ok(())
        }
    }
}

/// So many pages of an event, or all from the first on. Only the event's blocks are read from the image.
fn pages(store: &Store, id: u16, first: u64, asked: Option<u64>) -> Result<Vec<u8>, Failure> {
    let mut disk = store.unread()?;
    // What this refuses would be the first refusals of the read. It has to come first: pieces are read below.
    event_disk::check(&disk.catalogue, &disk.blocks)?;
    let listing = event_disk::list(&disk.catalogue)?;
    let event = listing.files.iter().find(|event| event.id == id);
    if let Some(event) = event {
        disk.read_pieces(&store.paths, &store.image, &event.pieces)?;
    }
    // At least one, so that a first page past the end is refused as such.
    let rest = event.map_or(0, |event| u64::from(event.blocks)).saturating_sub(first).max(1);
    // An event has at most as many pages as its disk has blocks: asking for one more is refused as asking for any more.
    let pages = asked.unwrap_or(rest).min(u64::from(listing.blocks) + 1);
    let mut content = vec![0; pages as usize * BLOCK];
    event_disk::read(&disk.catalogue, &disk.blocks, id, first, &mut content)?;
    Ok(content)
}

/// `evdisk list`.
pub fn list(arguments: &Arguments, out: &mut Vec<u8>) -> Result<(), Failure> {
    let listing = event_disk::list(&Store::to_look(arguments.paths())?.catalogue()?)?;
    say(arguments, out, table::listing(&listing).trim_end(), table::listing_json(&listing))
}

/// `evdisk breaks`.
pub fn breaks(arguments: &Arguments, out: &mut Vec<u8>) -> Result<(), Failure> {
    let id = arguments.id()?;
    let catalogue = Store::to_look(arguments.paths())?.catalogue()?;
    let breaks = event_disk::breaks(&catalogue, id)?;
    let limit = most_breaks(event(&event_disk::list(&catalogue)?, id).blocks);
    let json = [("id", Json::number(id)), ("breaks", Json::number(breaks)), ("limit", Json::number(limit))];
    let words = format!("{id}: {} (contract limit {limit})", counted(breaks, "break"));
    say(arguments, out, &words, Json::Object(json.into()))
}

/// `evdisk free`.
pub fn free(arguments: &Arguments, out: &mut Vec<u8>) -> Result<(), Failure> {
    let free = event_disk::free(&Store::to_look(arguments.paths())?.catalogue()?)?;
    let json = Json::Object(vec![("free", Json::number(free))]);
    say(arguments, out, &format!("{} free", counted(free, "block")), json)
}

/// `evdisk check`.
pub fn check(arguments: &Arguments, out: &mut Vec<u8>) -> Result<(), Failure> {
    let disk = Store::to_look(arguments.paths())?.unread()?;
    event_disk::check(&disk.catalogue, &disk.blocks)?;
    let listing = event_disk::list(&disk.catalogue)?;
    say(arguments, out, &format!("sound: {}", blocks_of(&listing)), blocks_json(&listing))
}

/// `evdisk map`.
pub fn map(arguments: &Arguments, out: &mut Vec<u8>) -> Result<(), Failure> {
    let width = arguments.number("--width")?.unwrap_or(64);
    if !(1..=map::MOST_LETTERS as u64).contains(&width) {
        return Err(Failure::usage(format!("--width: '{width}' is not 1 to {}", map::MOST_LETTERS)));
    }
    let paths = arguments.paths();
    let name = paths.image.display().to_string();
    let listing = event_disk::list(&Store::to_look(paths)?.catalogue()?)?;
    let text = match arguments.option_file("--svg") {
        None => map::drawn(&listing, width as usize, colours()),
        Some(path) => {
            let drawing = svg::drawn(&listing, width as usize, &name);
            if path != Path::new("-") {
                return files::write_new(&path, drawing.as_bytes());
            }
            drawing
        }
    };
    out.extend_from_slice(text.as_bytes());
    Ok(())
}

/// Whether colours are wanted: standard output is a terminal and NO_COLOR is not set.
fn colours() -> bool {
    std::io::stdout().is_terminal() && std::env::var_os("NO_COLOR").is_none_or(|value| value.is_empty())
}

/// `evdisk log`.
pub fn log(arguments: &Arguments, out: &mut Vec<u8>) -> Result<(), Failure> {
    let store = Store::to_look(arguments.paths())?;
    let lines = shift_log::read(&store.paths.log)?;
    let json = |line: &Line| {
        let date = ("date", Json::Text(line.date.clone()));
        Json::Object([date].into_iter().chain(line.removal.json()).collect())
    };
    say(arguments, out, table::shift_log(&lines).trim_end(), Json::List(lines.iter().map(json).collect()))
}

//! The commands that change a disk: format, add and remove, and what they share with replace.

use crate::arguments::Arguments;
use crate::commit::{self, go_on};
use crate::event_file::EventFile;
use crate::json::Json;
use crate::paths::Paths;
use crate::places::lying;
use crate::removal::{event, Removal};
use crate::shift_log::Line;
use crate::store::{self, Store};
use crate::table::{blocks_of, copies, counted};
use crate::{date, files, which, Failure};
use event_disk::{Listing, Refusal, Version, BLOCK};
use std::io::Write;
use std::path::Path;

/// Says something, as words or as JSON.
pub fn say(arguments: &Arguments, out: &mut Vec<u8>, words: &str, json: Json) -> Result<(), Failure> {
    match arguments.has("--json") {
        true => writeln!(out, "{json}"),
        false => writeln!(out, "{words}"),
    }
    .map_err(Failure::output)
}

/// `evdisk format`.
pub fn format(arguments: &Arguments, out: &mut Vec<u8>) -> Result<(), Failure> {
    let paths = arguments.paths();
    let (asked, large) = (arguments.number("--blocks")?, arguments.has("--large"));
    if let Some(there) = first_there(&paths)?.filter(|_| !arguments.has("--force")) {
        return Err(Failure::file(there, "is there already; --force formats it and gives up the events on it"));
    }
    let catalogue = match files::is_there(&paths.image)? {
        true => format_again(paths, asked, large)?,
        false => format_new(paths, asked, large)?,
    };
    let listing = event_disk::list(&catalogue)?;
    say(arguments, out, &format!("formatted: {}", blocks_of(&listing)), blocks_json(&listing))
}

/// The JSON that gives a disk's number of blocks.
pub fn blocks_json(listing: &Listing) -> Json {
    let version = Json::number(listing.version.number);
    Json::Object(vec![("blocks", Json::number(listing.blocks)), ("version", version)])
}

/// The catalogue that format makes for a disk: the large one if that is asked for, or if the disk needs it.
fn formatted(disk: &[u8], blocks: u64, large: bool) -> Result<Vec<u8>, Failure> {
    let version = if large { Version::LARGE } else { Version::for_blocks(blocks) };
    let mut catalogue = vec![0; version.catalogue];
    event_disk::format(&mut catalogue, disk)?;
    Ok(catalogue)
}

/// The first of a disk's files that is there, if one is.
fn first_there(paths: &Paths) -> Result<Option<&Path>, Failure> {
    for path in [&paths.image, &paths.catalogue, &paths.redo] {
        if files::is_there(path)? {
            return Ok(Some(path));
        }
    }
    Ok(None)
}

/// Formats a disk whose image is not there: makes the image, then the catalogue.
fn format_new(paths: Paths, asked: Option<u64>, large: bool) -> Result<Vec<u8>, Failure> {
    if files::is_there(&paths.redo)? {
        let why = "a removal or replacement waits here for its image; bring the image back, or remove this file";
        return Err(Failure::file(&paths.redo, why));
    }
    let blocks = asked.ok_or_else(|| Failure::usage("a new image needs --blocks C"))?;
    // More blocks than any disk has are refused as no blocks are, and no memory is asked for them.
    let most = store::greatest(|version| version.most_blocks);
    let possible = usize::try_from(blocks).ok().filter(|blocks| *blocks <= most).unwrap_or(0);
    let catalogue = formatted(&vec![0; possible * BLOCK], blocks, large)?;
    files::write_new_zeros(&paths.image, (possible * BLOCK) as u64)?;
    files::sync_folder(&paths)?;
    let store = Store::to_change(paths)?;
    commit::replace_catalogue(&store.paths, &catalogue, &mut go_on)?;
    Ok(catalogue)
}

/// Formats a disk whose image is there: its blocks keep their bytes.
fn format_again(paths: Paths, asked: Option<u64>, large: bool) -> Result<Vec<u8>, Failure> {
    let store = Store::to_change(paths)?;
    let disk = store::unread_blocks(&store.paths, &store.image)?;
    let blocks = (disk.len() / BLOCK) as u64;
    let catalogue = formatted(&disk, blocks, large)?;
    if asked.is_some_and(|asked| asked != blocks) {
        let why = format!("the image has {}: leave --blocks out, or remove the image", counted(blocks, "block"));
        return Err(Failure::usage(why));
    }
    commit::replace_catalogue(&store.paths, &catalogue, &mut go_on)?;
    Ok(catalogue)
}

/// `evdisk add`.
pub fn add(arguments: &Arguments, out: &mut Vec<u8>) -> Result<(), Failure> {
    let id = arguments.id()?;
    let store = Store::to_change(arguments.paths())?;
    // An add reads no block and writes those of the new event alone, so no other has to be read from the image.
    let mut disk = store.unread()?;
    let file = EventFile::open(arguments.file())?;
    let content = file.content(event_disk::free(&disk.catalogue).unwrap_or(0))?;
    let answer = match event_disk::add(&mut disk.catalogue, &mut disk.blocks, id, &content) {
        Err(Refusal::NoSpace) => {
            let most = (disk.blocks.len() / BLOCK) as u64;
            return Err(which::no_space(&mut disk, file.blocks(content.len(), most).unwrap_or(0)));
        }
        answer => answer?,
    };
    let listing = event_disk::list(&disk.catalogue)?;
    let added = event(&listing, id);
    let pieces = added.in_page_order();
    commit::add(&store.paths, &store.image, &disk.blocks_of(&pieces), &disk.catalogue, &mut go_on)?;
    let json = [
        ("id", Json::number(id)),
        ("blocks", Json::number(answer)),
        ("breaks", Json::number(added.breaks)),
        ("pieces", Json::pieces(&pieces)),
    ];
    say(arguments, out, &format!("added {id}: {}", lying(added)), Json::Object(json.into()))
}

/// `evdisk remove`.
pub fn remove(arguments: &Arguments, out: &mut Vec<u8>) -> Result<(), Failure> {
    let id = arguments.id()?;
    if arguments.has("--dry-run") {
        return try_removal(arguments, id, out);
    }
    let store = Store::to_change(arguments.paths())?;
    let (removal, _) = shift(&store, id, |cat, blocks| event_disk::remove(cat, blocks, id))?;
    say(arguments, out, &format!("removed {id}: {}", copies(&removal)), Json::Object(removal.json()))
}

/// `evdisk remove --dry-run`: says what the removal would do, and does nothing of it.
fn try_removal(arguments: &Arguments, id: u16, out: &mut Vec<u8>) -> Result<(), Failure> {
    let mut disk = Store::to_look(arguments.paths())?.unread()?;
    let listing = event_disk::list(&disk.catalogue)?;
    let removal = Removal::tried(&disk.catalogue, &listing, &mut disk.blocks, id)?;
    let json = removal.json().into_iter().chain([("dry_run", Json::Truth(true))]).collect();
    say(arguments, out, &format!("would remove {id}: {}", copies(&removal)), Json::Object(json))
}

/// Does a call that removes an event, for good or to put another in its place, and has it last, with a line in the
/// shift log. Gives the removal, and what the catalogue lists afterwards.
pub fn shift(
    store: &Store,
    id: u16,
    call: impl FnOnce(&mut [u8], &mut [u8]) -> Result<u64, Refusal>,
) -> Result<(Removal, Listing), Failure> {
    let mut disk = store.whole()?;
    let before = disk.catalogue.clone();
    let copied = call(&mut disk.catalogue, &mut disk.blocks)?;
    let removal = Removal::of(&event_disk::list(&before)?, id, copied);
    let text = Line { date: date::now(), removal }.text();
    let redo = commit::written_down(&store.paths, &store.image, &before, &disk, &text)?;
    commit::shift(&store.paths, &store.image, &redo, &mut go_on)?;
    Ok((removal, event_disk::list(&disk.catalogue)?))
}

//! Calls that need much stack, each prepared on buffers that are not on it.

use std::hint::black_box;

use model::{Catalogue, Entry, Version};

use crate::layouts::{most_pairs, staircase};
use crate::letters;
use event_disk::{add, breaks, check, format, free, read, remove, replace, which, Refusal, BLOCK, MOST_FILES};

/// Bytes that the known scene needs at least.
pub const KNOWN: usize = 64 * 1024;

/// Scenes that test the measurement.
pub const TRIALS: [&str; 2] = ["none", "known"];

/// The names of the scenes: the call that each measures comes first.
pub const SCENES: [&str; 24] = [
    "format-most-pairs",
    "format-greatest",
    "add-one-to-empty",
    "add-all",
    "add-64th",
    "add-65th",
    "remove-last",
    "remove-one-of-64",
    "remove-most-copied",
    "replace-all",
    "replace-one-of-64",
    "replace-most-copied",
    "replace-no-letter",
    "read-all",
    "read-one-of-64",
    "breaks-of-64",
    "free-of-64",
    "which-one-file",
    "which-all-of-64",
    "which-most-copied",
    "which-no-list",
    "check-64",
    "check-not-sound",
    "add-not-sound",
];

/// A disk with its catalogue. The bytes of a long disk take no memory until they are touched.
struct Disk {
    cat: Vec<u8>,
    disk: Vec<u8>,
}

impl Disk {
    fn fresh(version: Version, blocks: usize) -> Result<Disk, Refusal> {
        let mut fresh = Disk { cat: vec![0; version.catalogue], disk: vec![0; blocks * BLOCK] };
        format(&mut fresh.cat, &fresh.disk)?;
        Ok(fresh)
    }

    /// A disk with this catalogue, whose files have any pages.
    fn of(catalogue: &Catalogue) -> Disk {
        let mut cat = vec![0; catalogue.version.catalogue];
        model::write(catalogue, &mut cat);
        Disk { cat, disk: vec![0; catalogue.blocks as usize * BLOCK] }
    }

    fn removed(mut self, id: u16) -> Result<Disk, Refusal> {
        remove(&mut self.cat, &mut self.disk, id)?;
        Ok(self)
    }

    /// The disk with the most pairs, the last free one of which is made to share its blocks with a file.
    fn not_sound(version: Version) -> Disk {
        let mut catalogue = most_pairs(version);
        if let Some(last) = catalogue.free.last_mut() {
            last.first = 0;
        }
        Disk::of(&catalogue)
    }
}

/// The catalogue of a disk that has as many pieces as one can have, and that one file holds.
fn one_file(version: Version) -> Catalogue {
    let blocks = version.most_blocks as u32 - 1;
    let pairs = model::BlockMap::fresh(version, blocks).catalogue().free;
    Catalogue { version, blocks, entries: vec![Entry { id: 1, blocks, pairs }], free: Vec::new() }
}

/// The disk on which the removal of id 1 copies most.
fn most_copied(version: Version) -> Disk {
    Disk::of(&staircase(version, u32::from(version.most_height()) - 1))
}

/// A call that is ready to be made.
pub type Ready = Box<dyn FnMut() -> Result<u64, Refusal>>;

/// Lets a prepared disk and a call on it wait for each other.
fn ready(
    mut disk: Disk,
    call: impl Fn(&mut [u8], &mut [u8]) -> Result<u64, Refusal> + 'static,
) -> Result<Ready, Refusal> {
    Ok(Box::new(move || call(&mut disk.cat, &mut disk.disk)))
}

/// The refusal that the call of a scene gets; the others are answered.
pub fn refusal(name: &str) -> Option<Refusal> {
    match name {
        "add-65th" => Some(Refusal::FilesFull),
        "check-not-sound" | "add-not-sound" => Some(Refusal::NotSound),
        "replace-no-letter" => Some(Refusal::LetterUnknown),
        "which-no-list" => Some(Refusal::ListLength),
        _ => None,
    }
}

/// Prepares a scene in a version; nothing if there is none of that name.
pub fn prepare(name: &str, version: Version) -> Option<Result<Ready, Refusal>> {
    let most = version.most_blocks;
    let fresh = |blocks| Disk::fresh(version, blocks);
    let full = || Disk::of(&most_pairs(version));
    let last = full_files(version);
    let scene = match name {
        "none" => Ok(Box::new(|| Ok(0u64)) as Ready),
        "known" => Ok(Box::new(known) as Ready),
        "format-most-pairs" => fresh(most - 1).and_then(|d| ready(d, |cat, disk| format(cat, disk))),
        "format-greatest" => fresh(most).and_then(|d| ready(d, |cat, disk| format(cat, disk))),
        "breaks-of-64" => ready(full(), move |cat, _| breaks(cat, last)),
        "free-of-64" => ready(full(), |cat, _| free(cat)),
        "which-one-file" => listing(Disk::of(&one_file(version)), MOST_FILES),
        "which-all-of-64" => listing(full(), MOST_FILES),
        "which-most-copied" => listing(most_copied(version), MOST_FILES),
        "which-no-list" => listing(full(), 0),
        "check-64" => ready(full(), |cat, disk| check(cat, disk)),
        "check-not-sound" => ready(Disk::not_sound(version), |cat, disk| check(cat, disk)),
        "read-all" => reading(Disk::of(&one_file(version)), 1, most - 1),
        "read-one-of-64" => reading(full(), last, pages_of(version, last)),
        "remove-last" => removing(Disk::of(&one_file(version)), 1),
        "remove-one-of-64" => removing(full(), 1),
        "remove-most-copied" => removing(most_copied(version), 1),
        "replace-all" => replacing(Disk::of(&one_file(version)), 1, b'M', most - 1),
        "replace-one-of-64" => replacing(full(), last, b'M', pages_of(version, last)),
        "replace-most-copied" => replacing(most_copied(version), 1, b'M', 1),
        "replace-no-letter" => replacing(full(), last, 0, 1),
        "add-one-to-empty" => fresh(most).and_then(|d| adding(d, 1)),
        "add-all" => fresh(most - 1).and_then(|d| adding(d, most - 1)),
        "add-64th" => full().removed(last).and_then(|d| adding(d, pages_of(version, last))),
        "add-65th" => adding(full(), 1),
        "add-not-sound" => adding(Disk::not_sound(version), 1),
        _ => return None,
    };
    Some(scene)
}

/// The id of the last of 64 files.
fn full_files(version: Version) -> u16 {
    most_pairs(version).entries.last().map_or(0, |entry| entry.id)
}

/// The pages of one of 64 files.
fn pages_of(version: Version, id: u16) -> usize {
    most_pairs(version).entry(id).map_or(0, |entry| entry.blocks as usize)
}

fn adding(disk: Disk, pages: usize) -> Result<Ready, Refusal> {
    let content = vec![0; pages * BLOCK];
    ready(disk, move |cat, disk| add(cat, disk, 65, &content))
}

fn removing(disk: Disk, id: u16) -> Result<Ready, Refusal> {
    ready(disk, move |cat, disk| remove(cat, disk, id))
}

/// The pages of these disks are zero bytes, which are no letter, so that each letter ranks above theirs.
fn replacing(disk: Disk, id: u16, letter: u8, pages: usize) -> Result<Ready, Refusal> {
    let mut content = vec![0; pages * BLOCK];
    content[letters::PLACE] = letter;
    ready(disk, move |cat, disk| replace(cat, disk, id, &content))
}

fn reading(disk: Disk, id: u16, pages: usize) -> Result<Ready, Refusal> {
    let Disk { cat, disk } = disk;
    let mut out = vec![0; pages * BLOCK];
    Ok(Box::new(move || read(&cat, &disk, id, 0, &mut out)))
}

/// Each file suffices for one block more than is free.
fn listing(disk: Disk, places: usize) -> Result<Ready, Refusal> {
    let (n, mut list) = (free(&disk.cat)? + 1, vec![0; places]);
    Ok(Box::new(move || which(&disk.cat, n, &mut list).map(|_| 0)))
}

/// Needs a known number of bytes of stack.
fn known() -> Result<u64, Refusal> {
    black_box(&mut [0u8; KNOWN]);
    Ok(0)
}

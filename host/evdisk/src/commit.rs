//! How a command's writes follow each other, so that it is done whole or not at all whenever it is cut off.
//!
//! An add writes only to blocks that are free in the catalogue before, so its pages go to the image first and the
//! catalogue is replaced last, by a rename: that is the step that decides.
//!
//! A removal copies onto blocks that files hold in the catalogue before, and a replacement writes its pages to such
//! blocks too. So either is written down first, whole, as a redo file beside the image; the rename that gives that file
//! its name is the step that decides. Then the blocks, the catalogue and the shift log are written and the redo file is
//! removed. If it is found at the start of a command, all that is done again, which gives the same bytes however far it
//! had come.
//!
//! After each lasting write a watcher is asked whether to go on. The tool's always agrees; a test's stops there, as the
//! supply may fail there.

use crate::checksum::checksum;
use crate::paths::Paths;
use crate::redo::{self, Block, Redo};
use crate::store::Disk;
use crate::{files, shift_log, Failure};
use event_disk::BLOCK;
use std::fs::{self, File};

/// Who is asked after each lasting write, with its name, whether to go on.
pub type Watch<'a> = &'a mut dyn FnMut(&str) -> Result<(), Failure>;

/// The watcher that always goes on.
pub fn go_on(_: &str) -> Result<(), Failure> {
    Ok(())
}

/// The blocks that are not as in the image, with their new bytes. The image is read once more for that, part by part,
/// so that it need not be in memory twice.
fn changed<'a>(paths: &Paths, image: &File, after: &'a [u8]) -> Result<Vec<Block<'a>>, Failure> {
    let mut changed = Vec::new();
    files::read_parts(image, &paths.image, 0..after.len(), |at, before| {
        let pairs = before.chunks(BLOCK).zip(after[at..].chunks(BLOCK));
        let numbered = (at as u64 / BLOCK as u64..).zip(pairs);
        changed.extend(numbered.filter(|(_, (old, new))| old != new).map(|(number, (_, new))| (number, new)));
    })?;
    Ok(changed)
}

/// Makes an add last: the pages into free blocks, then the catalogue.
pub fn add(paths: &Paths, image: &File, pages: &[Block], catalogue: &[u8], watch: Watch) -> Result<(), Failure> {
    write_blocks(paths, image, pages, watch)?;
    replace_catalogue(paths, catalogue, watch)
}

/// The removal or replacement that leads from the disk in the image, with its catalogue, to another, with its line of
/// the shift log.
pub fn written_down<'a>(
    paths: &Paths,
    image: &File,
    before: &[u8],
    after: &'a Disk,
    line: &'a str,
) -> Result<Redo<'a>, Failure> {
    Ok(Redo {
        blocks: (after.blocks.len() / BLOCK) as u64,
        before: checksum(before),
        catalogue: &after.catalogue,
        log_length: shift_log::length(&paths.log)?,
        log_line: line.as_bytes(),
        changed: changed(paths, image, &after.blocks)?,
    })
}

/// Makes a removal or replacement last: decides it, and then does it.
pub fn shift(paths: &Paths, image: &File, redo: &Redo, watch: Watch) -> Result<(), Failure> {
    let done = decide(paths, redo, watch).and_then(|()| carry_out(paths, image, redo, watch));
    done.map_err(|failure| match files::is_there(&paths.redo) {
        Ok(true) => failure.and("the change is decided, and the next command completes it"),
        _ => failure,
    })
}

/// Writes the redo file and gives it its name, which decides the change.
fn decide(paths: &Paths, redo: &Redo, watch: Watch) -> Result<(), Failure> {
    files::write_by(&paths.redo_new, |file| redo.write(file))?;
    watch("redo file written")?;
    files::rename(paths, &paths.redo_new, &paths.redo)?;
    watch("redo file named")
}

/// Does what is decided, or does it again.
fn carry_out(paths: &Paths, image: &File, redo: &Redo, watch: Watch) -> Result<(), Failure> {
    write_blocks(paths, image, &redo.changed, watch)?;
    replace_catalogue(paths, redo.catalogue, watch)?;
    shift_log::put(&paths.log, redo.log_length, redo.log_line)?;
    files::sync_folder(paths)?;
    watch("log line written")?;
    files::remove(paths, &paths.redo)?;
    watch("redo file removed")
}

/// Writes blocks to the image and has them last.
fn write_blocks(paths: &Paths, image: &File, blocks: &[Block], watch: Watch) -> Result<(), Failure> {
    for (number, bytes) in blocks {
        files::write_at(image, &paths.image, number * BLOCK as u64, bytes)?;
        watch("block written")?;
    }
    files::sync(image, &paths.image)
}

/// Puts a catalogue in the place of the old one, if there is one, in one step.
pub fn replace_catalogue(paths: &Paths, catalogue: &[u8], watch: Watch) -> Result<(), Failure> {
    files::write(&paths.catalogue_new, catalogue)?;
    if let Ok(about) = fs::metadata(&paths.catalogue) {
        let kept = fs::set_permissions(&paths.catalogue_new, about.permissions());
        kept.map_err(|why| Failure::file(&paths.catalogue_new, why))?;
    }
    watch("catalogue written")?;
    files::rename(paths, &paths.catalogue_new, &paths.catalogue)?;
    watch("catalogue named")
}

/// Completes a removal or replacement that was cut off after it was decided, if there is one, and clears away what was
/// not decided. Says whether there was one.
pub fn recover(paths: &Paths, image: &File, watch: Watch) -> Result<bool, Failure> {
    let pending = files::is_there(&paths.redo)?;
    if pending {
        let bytes = files::read_at_most(&files::open(&paths.redo)?, &paths.redo, redo::most())?;
        carry_out(paths, image, &pending_change(paths, image, &bytes)?, watch)?;
    }
    files::remove(paths, &paths.redo_new)?;
    files::remove(paths, &paths.catalogue_new)?;
    Ok(pending)
}

/// The change in the bytes of the redo file, if that is whole and about this disk.
fn pending_change<'a>(paths: &Paths, image: &File, bytes: &'a [u8]) -> Result<Redo<'a>, Failure> {
    let wrong = |why: &str| Failure::file(&paths.redo, why).and("nothing was changed (see evdisk(1), RECOVERY)");
    let redo = Redo::of_bytes(bytes).ok_or_else(|| wrong("this redo file is damaged"))?;
    let disk = Disk::unread(paths, image)?;
    let known = checksum(&disk.catalogue) == redo.before || disk.catalogue == redo.catalogue;
    if !known || redo.blocks.checked_mul(BLOCK as u64) != Some(disk.blocks.len() as u64) {
        return Err(wrong("this redo file belongs to another disk"));
    }
    Ok(redo)
}

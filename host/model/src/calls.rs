//! The calls on bytes. A call first finds whether it is refused, and for that it only looks at its buffers.

use crate::{sound, write, BlockMap, Catalogue, Choice, Merge, Move, Version, BLOCK, MOST_FILES};

/// The answer of a call, or the number of its refusal.
pub type Answer = Result<u64, u8>;

/// Refuses with the lowest number whose condition holds.
fn refuse_lowest(conditions: &[(u8, bool)]) -> Result<(), u8> {
    match conditions.iter().filter(|(_, holds)| *holds).map(|(number, _)| *number).min() {
        Some(number) => Err(number),
        None => Ok(()),
    }
}

/// Refuses with the number of the first condition that holds, for a call whose order is that of a request. The numbers
/// need not rise.
pub(crate) fn refuse_first(conditions: &[(u8, bool)]) -> Result<(), u8> {
    conditions.iter().try_for_each(|&(number, holds)| if holds { Err(number) } else { Ok(()) })
}

/// The version that format makes in a buffer: refusal 1 if no catalogue is as long.
fn version_for(cat: &[u8]) -> Result<Version, u8> {
    Version::of_length(cat.len()).ok_or(1)
}

/// The catalogue in a buffer: refusals 1 and 3.
pub(crate) fn catalogue_in(cat: &[u8]) -> Result<Catalogue, u8> {
    version_for(cat)?;
    sound(cat).ok_or(3)
}

/// Whether the disk buffer is not 512 times the catalogue's C: refusal 4.
pub(crate) fn wrong_disk(catalogue: &Catalogue, disk: &[u8]) -> bool {
    disk.len() != BLOCK * catalogue.blocks as usize
}

/// Whether a content or output length is 0 or no multiple of 512: refusal 8.
pub(crate) fn wrong_length(length: usize) -> bool {
    length == 0 || !length.is_multiple_of(BLOCK)
}

/// Format.
pub fn format(cat: &mut [u8], disk: &[u8]) -> Answer {
    let version = version_for(cat)?;
    let blocks = disk.len() / BLOCK;
    let no_disk = !disk.len().is_multiple_of(BLOCK) || !(1..=version.most_blocks).contains(&blocks);
    refuse_lowest(&[(2, no_disk)])?;
    write(&BlockMap::fresh(version, blocks as u32).catalogue(), cat);
    Ok(blocks as u64)
}

/// What add finds before it changes anything.
fn look_for_add(cat: &[u8], disk: &[u8], id: u16, content: &[u8]) -> Result<BlockMap, u8> {
    let catalogue = catalogue_in(cat)?;
    refuse_lowest(&[
        (4, wrong_disk(&catalogue, disk)),
        (5, id == 0),
        (7, catalogue.entry(id).is_some()),
        (8, wrong_length(content.len())),
        (10, catalogue.entries.len() == MOST_FILES),
        (11, content.len() / BLOCK > catalogue.free_blocks() as usize),
    ])?;
    Ok(BlockMap::of(&catalogue))
}

/// Add.
pub fn add(cat: &mut [u8], disk: &mut [u8], id: u16, content: &[u8]) -> Answer {
    let mut map = look_for_add(cat, disk, id, content)?;
    let n = content.len() / BLOCK;
    map.add(id, n as u32);
    for (page, block) in content.chunks_exact(BLOCK).zip(map.pages(id)) {
        disk[block * BLOCK..][..BLOCK].copy_from_slice(page);
    }
    write(&map.catalogue(), cat);
    Ok(n as u64)
}

/// What remove finds before it changes anything.
fn look_for_remove(cat: &[u8], disk: &[u8], id: u16) -> Result<BlockMap, u8> {
    let catalogue = catalogue_in(cat)?;
    refuse_lowest(&[(4, wrong_disk(&catalogue, disk)), (5, id == 0), (6, catalogue.entry(id).is_none())])?;
    Ok(BlockMap::of(&catalogue))
}

/// The merges of the removal of an id, in order, if two free sections are chosen like that.
pub fn removal_merges(choice: Choice, cat: &[u8], disk: &[u8], id: u16) -> Result<Vec<Merge>, u8> {
    Ok(look_for_remove(cat, disk, id)?.remove_by(choice, id))
}

/// The buddies that the removal of an id moves, in order.
pub fn removal_moves(cat: &[u8], disk: &[u8], id: u16) -> Result<Vec<Move>, u8> {
    Ok(look_for_remove(cat, disk, id)?.remove(id))
}

/// The block copies that the removal of an id makes, from and to, in order.
pub fn removal_copies(cat: &[u8], disk: &[u8], id: u16) -> Result<Vec<(usize, usize)>, u8> {
    Ok(removal_moves(cat, disk, id)?.into_iter().flat_map(|moved| moved.copies).collect())
}

/// Remove.
pub fn remove(cat: &mut [u8], disk: &mut [u8], id: u16) -> Answer {
    let mut map = look_for_remove(cat, disk, id)?;
    let mut copied = 0;
    for (from, to) in map.remove(id).into_iter().flat_map(|moved| moved.copies) {
        disk.copy_within(from * BLOCK..(from + 1) * BLOCK, to * BLOCK);
        copied += 1;
    }
    write(&map.catalogue(), cat);
    Ok(copied)
}

/// Read. The first page is any number; the sum with the count is the true one.
pub fn read(cat: &[u8], disk: &[u8], id: u16, first: u64, out: &mut [u8]) -> Answer {
    let catalogue = catalogue_in(cat)?;
    let n = catalogue.entry(id).map_or(0, |entry| entry.blocks);
    let count = out.len() / BLOCK;
    refuse_lowest(&[
        (4, wrong_disk(&catalogue, disk)),
        (5, id == 0),
        (6, catalogue.entry(id).is_none()),
        (8, wrong_length(out.len())),
        (9, u128::from(first) + count as u128 > u128::from(n)),
    ])?;
    let pages = BlockMap::of(&catalogue).pages(id);
    for (page, block) in out.chunks_exact_mut(BLOCK).zip(&pages[first as usize..]) {
        page.copy_from_slice(&disk[block * BLOCK..][..BLOCK]);
    }
    Ok(count as u64)
}

/// Breaks: how often the drive seeks between two pages when all pages of a file are read in order.
pub fn breaks(cat: &[u8], id: u16) -> Answer {
    let catalogue = catalogue_in(cat)?;
    refuse_lowest(&[(5, id == 0), (6, catalogue.entry(id).is_none())])?;
    Ok(BlockMap::of(&catalogue).breaks(id) as u64)
}

/// Free: f.
pub fn free(cat: &[u8]) -> Answer {
    Ok(u64::from(catalogue_in(cat)?.free_blocks()))
}

/// Check.
pub fn check(cat: &[u8], disk: &[u8]) -> Answer {
    let catalogue = catalogue_in(cat)?;
    refuse_lowest(&[(4, wrong_disk(&catalogue, disk))])?;
    Ok(u64::from(catalogue.blocks))
}

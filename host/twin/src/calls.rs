//! The calls on a lent catalogue and a lent disk, but for `which`.

use crate::disk::{copy_merge, read_pages, write_pages};
use crate::letter::{rank, stored_rank};
use crate::loading::load;
use crate::storing::{store, store_fresh};
use crate::table::{Entry, Table};
use crate::{Version, BLOCK, MOST_FILES};

/// The answer of a call, or the number of its refusal.
pub type Answer = Result<u64, u8>;

/// Refuses with a number if its condition holds.
pub fn refuse_if(condition: bool, number: u8) -> Result<(), u8> {
    if condition {
        Err(number)
    } else {
        Ok(())
    }
}

/// The table of a catalogue: refusals 1 and 3.
pub fn open(cat: &[u8]) -> Result<Table, u8> {
    let version = Version::of_length(cat.len()).ok_or(1)?;
    load(cat, version).ok_or(3)
}

/// Refusals 4 and 5.
fn check_disk_and_id(table: &Table, disk: &[u8], id: u16) -> Result<(), u8> {
    refuse_if(disk.len() != BLOCK * table.blocks as usize, 4)?;
    refuse_if(id == 0, 5)
}

/// Refusal 8.
fn check_buffer(length: usize) -> Result<(), u8> {
    refuse_if(length == 0 || !length.is_multiple_of(BLOCK), 8)
}

/// Refusal 11: so many blocks are free, or will be.
fn check_space(length: usize, free: u32) -> Result<(), u8> {
    refuse_if(length / BLOCK > free as usize, 11)
}

/// Takes a file out, merges free pieces until no height has two, and answers how many blocks were copied for that.
fn take_out(table: &mut Table, disk: &mut [u8], at: usize) -> u64 {
    table.release(at);
    let mut copied = 0;
    while let Some((lower, upper)) = table.free.take_pair() {
        copied += copy_merge(disk, &table.free, lower, upper);
        table.merge(lower, upper);
    }
    copied
}

/// Gives a file pieces and writes its pages to them, for which there is space. Answers their number.
fn place(table: &mut Table, disk: &mut [u8], id: u16, content: &[u8]) -> u64 {
    let pages = content.len() / BLOCK;
    let entry = Entry { id: id.into(), pieces: table.allocate(pages as u32) };
    write_pages(disk, content, &entry);
    table.put(entry);
    pages as u64
}

/// Format.
pub fn format(cat: &mut [u8], disk: &[u8]) -> Answer {
    let version = Version::of_length(cat.len()).ok_or(1)?;
    let blocks = disk.len() / BLOCK;
    refuse_if(!disk.len().is_multiple_of(BLOCK) || !(1..=version.most_blocks).contains(&blocks), 2)?;
    store_fresh(cat, version, blocks as u32);
    Ok(blocks as u64)
}

/// Add.
pub fn add(cat: &mut [u8], disk: &mut [u8], id: u16, content: &[u8]) -> Answer {
    let mut table = open(cat)?;
    check_disk_and_id(&table, disk, id)?;
    refuse_if(table.find(id.into()).is_some(), 7)?;
    check_buffer(content.len())?;
    refuse_if(table.files().len() >= MOST_FILES, 10)?;
    check_space(content.len(), table.free.blocks())?;
    let pages = place(&mut table, disk, id, content);
    store(cat, &table);
    Ok(pages)
}

/// Remove.
pub fn remove(cat: &mut [u8], disk: &mut [u8], id: u16) -> Answer {
    let mut table = open(cat)?;
    check_disk_and_id(&table, disk, id)?;
    let at = table.find(id.into()).ok_or(6)?;
    let copied = take_out(&mut table, disk, at);
    store(cat, &table);
    Ok(copied)
}

/// Replace: a removal and then an add, with one load and one store. 12 and 13 come before 11.
pub fn replace(cat: &mut [u8], disk: &mut [u8], id: u16, content: &[u8]) -> Answer {
    let mut table = open(cat)?;
    check_disk_and_id(&table, disk, id)?;
    let at = table.find(id.into()).ok_or(6)?;
    check_buffer(content.len())?;
    let (entry, new) = (&table.files()[at], rank(content));
    refuse_if(new.is_none(), 12)?;
    refuse_if(new <= stored_rank(disk, entry), 13)?;
    check_space(content.len(), table.free.blocks() + entry.pieces.blocks())?;
    let copied = take_out(&mut table, disk, at);
    place(&mut table, disk, id, content);
    store(cat, &table);
    Ok(copied)
}

/// Read.
pub fn read(cat: &[u8], disk: &[u8], id: u16, first: u64, out: &mut [u8]) -> Answer {
    let table = open(cat)?;
    check_disk_and_id(&table, disk, id)?;
    let entry = &table.files()[table.find(id.into()).ok_or(6)?];
    check_buffer(out.len())?;
    let count = (out.len() / BLOCK) as u64;
    let n = u64::from(entry.pieces.blocks());
    refuse_if(count > n || first > n - count, 9)?;
    read_pages(disk, entry, first as usize, out);
    Ok(count)
}

/// Breaks.
pub fn breaks(cat: &[u8], id: u16) -> Answer {
    let table = open(cat)?;
    refuse_if(id == 0, 5)?;
    let entry = &table.files()[table.find(id.into()).ok_or(6)?];
    Ok(entry.pieces.breaks() as u64)
}

/// Free.
pub fn free(cat: &[u8]) -> Answer {
    Ok(open(cat)?.free.blocks().into())
}

/// Check.
pub fn check(cat: &[u8], disk: &[u8]) -> Answer {
    let table = open(cat)?;
    refuse_if(disk.len() != BLOCK * table.blocks as usize, 4)?;
    Ok(table.blocks.into())
}

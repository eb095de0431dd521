//! The exported calls on slices: pointers and lengths are those of slices, and a slice that is written overlaps no other.

use crate::exports;

pub fn format(cat: &mut [u8], disk: &[u8]) -> i64 {
    // SAFETY: as said above.
    unsafe { exports::evdisk_format(cat.as_mut_ptr(), cat.len(), disk.as_ptr(), disk.len()) }
}

pub fn add(cat: &mut [u8], disk: &mut [u8], id: u16, content: &[u8]) -> i64 {
    let (cat, cat_length) = (cat.as_mut_ptr(), cat.len());
    let (disk, disk_length) = (disk.as_mut_ptr(), disk.len());
    // SAFETY: as said above.
    unsafe { exports::evdisk_add(cat, cat_length, disk, disk_length, id, content.as_ptr(), content.len()) }
}

pub fn remove(cat: &mut [u8], disk: &mut [u8], id: u16) -> i64 {
    // SAFETY: as said above.
    unsafe { exports::evdisk_remove(cat.as_mut_ptr(), cat.len(), disk.as_mut_ptr(), disk.len(), id) }
}

pub fn replace(cat: &mut [u8], disk: &mut [u8], id: u16, content: &[u8]) -> i64 {
    let (cat, cat_length) = (cat.as_mut_ptr(), cat.len());
    let (disk, disk_length) = (disk.as_mut_ptr(), disk.len());
    // SAFETY: as said above.
    unsafe { exports::evdisk_replace(cat, cat_length, disk, disk_length, id, content.as_ptr(), content.len()) }
}

pub fn read(cat: &[u8], disk: &[u8], id: u16, first: u64, out: &mut [u8]) -> i64 {
    let (cat, cat_length) = (cat.as_ptr(), cat.len());
    let (disk, disk_length) = (disk.as_ptr(), disk.len());
    // SAFETY: as said above.
    unsafe { exports::evdisk_read(cat, cat_length, disk, disk_length, id, first, out.as_mut_ptr(), out.len()) }
}

pub fn breaks(cat: &[u8], id: u16) -> i64 {
    // SAFETY: as said above.
    unsafe { exports::evdisk_breaks(cat.as_ptr(), cat.len(), id) }
}

pub fn free(cat: &[u8]) -> i64 {
    // SAFETY: as said above.
    unsafe { exports::evdisk_free(cat.as_ptr(), cat.len()) }
}

pub fn check(cat: &[u8], disk: &[u8]) -> i64 {
    // SAFETY: as said above.
    unsafe { exports::evdisk_check(cat.as_ptr(), cat.len(), disk.as_ptr(), disk.len()) }
}

pub fn which(cat: &[u8], n: u64, places: &mut [u16]) -> i64 {
    // SAFETY: as said above.
    unsafe { exports::evdisk_which(cat.as_ptr(), cat.len(), n, places.as_mut_ptr(), places.len()) }
}

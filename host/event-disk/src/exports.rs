//! The exported calls as C sees them: include/evdisk.h, line by line.

extern "C" {
    pub fn evdisk_format(cat: *mut u8, cat_length: usize, disk: *const u8, disk_length: usize) -> i64;
    pub fn evdisk_add(
        cat: *mut u8,
        cat_length: usize,
        disk: *mut u8,
        disk_length: usize,
        id: u16,
        content: *const u8,
        content_length: usize,
    ) -> i64;
    pub fn evdisk_remove(cat: *mut u8, cat_length: usize, disk: *mut u8, disk_length: usize, id: u16) -> i64;
    pub fn evdisk_replace(
        cat: *mut u8,
        cat_length: usize,
        disk: *mut u8,
        disk_length: usize,
        id: u16,
        content: *const u8,
        content_length: usize,
    ) -> i64;
    pub fn evdisk_read(
        cat: *const u8,
        cat_length: usize,
        disk: *const u8,
        disk_length: usize,
        id: u16,
        first: u64,
        out: *mut u8,
        out_length: usize,
    ) -> i64;
    pub fn evdisk_breaks(cat: *const u8, cat_length: usize, id: u16) -> i64;
    pub fn evdisk_free(cat: *const u8, cat_length: usize) -> i64;
    pub fn evdisk_check(cat: *const u8, cat_length: usize, disk: *const u8, disk_length: usize) -> i64;
    pub fn evdisk_which(cat: *const u8, cat_length: usize, n: u64, places: *mut u16, places_length: usize) -> i64;
}

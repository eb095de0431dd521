//! The plain twin in the place of the archive, for a first look: tested against the proved calls, and not proved.

/// The number that the exported call would give back.
fn number(answer: Result<u64, u8>) -> i64 {
    match answer {
        Ok(n) => i64::try_from(n).expect("answers have 32 bits"),
        Err(refusal) => -i64::from(refusal),
    }
}

pub fn format(cat: &mut [u8], disk: &[u8]) -> i64 {
    number(twin::format(cat, disk))
}

pub fn add(cat: &mut [u8], disk: &mut [u8], id: u16, content: &[u8]) -> i64 {
    number(twin::add(cat, disk, id, content))
}

pub fn remove(cat: &mut [u8], disk: &mut [u8], id: u16) -> i64 {
    number(twin::remove(cat, disk, id))
}

pub fn replace(cat: &mut [u8], disk: &mut [u8], id: u16, content: &[u8]) -> i64 {
    number(twin::replace(cat, disk, id, content))
}

pub fn read(cat: &[u8], disk: &[u8], id: u16, first: u64, out: &mut [u8]) -> i64 {
    number(twin::read(cat, disk, id, first, out))
}

pub fn breaks(cat: &[u8], id: u16) -> i64 {
    number(twin::breaks(cat, id))
}

pub fn free(cat: &[u8]) -> i64 {
    number(twin::free(cat))
}

pub fn check(cat: &[u8], disk: &[u8]) -> i64 {
    number(twin::check(cat, disk))
}

pub fn which(cat: &[u8], n: u64, places: &mut [u16]) -> i64 {
    number(twin::which(cat, n, places))
}

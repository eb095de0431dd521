//! One call on the proved manager and on the twin, each with buffers of its own.

pub mod any;
pub mod numbers;

use event_disk::{Refusal, Which};
use twin::{BLOCK, FITS_ALREADY, MOST_FILES};

/// A catalogue, a disk, an output and a list.
#[derive(Clone, PartialEq)]
pub struct Buffers {
    pub cat: Vec<u8>,
    pub disk: Vec<u8>,
    pub out: Vec<u8>,
    pub list: Vec<u16>,
}

impl Buffers {
    /// With an output of one page and a list of the right length.
    pub fn of(cat: Vec<u8>, disk: Vec<u8>) -> Buffers {
        Buffers { cat, disk, out: vec![0; BLOCK], list: vec![0; MOST_FILES] }
    }
}

/// A call with its arguments.
#[derive(Debug)]
pub enum Call {
    Format,
    Add(u16, Vec<u8>),
    Remove(u16),
    Replace(u16, Vec<u8>),
    Read(u16, u64),
    Breaks(u16),
    Free,
    Check,
    Which(u64),
}

/// The number of an answer of which.
fn number(answer: Which) -> u64 {
    match answer {
        Which::FitsAlready => FITS_ALREADY,
        Which::Removals(count) => count as u64,
    }
}

fn on_proved(call: &Call, b: &mut Buffers) -> Result<u64, u8> {
    let answer = match call {
        Call::Format => event_disk::format(&mut b.cat, &b.disk),
        Call::Add(id, content) => event_disk::add(&mut b.cat, &mut b.disk, *id, content),
        Call::Remove(id) => event_disk::remove(&mut b.cat, &mut b.disk, *id),
        Call::Replace(id, content) => event_disk::replace(&mut b.cat, &mut b.disk, *id, content),
        Call::Read(id, first) => event_disk::read(&b.cat, &b.disk, *id, *first, &mut b.out),
        Call::Breaks(id) => event_disk::breaks(&b.cat, *id),
        Call::Free => event_disk::free(&b.cat),
        Call::Check => event_disk::check(&b.cat, &b.disk),
        Call::Which(n) => event_disk::which(&b.cat, *n, &mut b.list).map(number),
    };
    answer.map_err(Refusal::number)
}

fn on_twin(call: &Call, b: &mut Buffers) -> Result<u64, u8> {
    match call {
        Call::Format => twin::format(&mut b.cat, &b.disk),
        Call::Add(id, content) => twin::add(&mut b.cat, &mut b.disk, *id, content),
        Call::Remove(id) => twin::remove(&mut b.cat, &mut b.disk, *id),
        Call::Replace(id, content) => twin::replace(&mut b.cat, &mut b.disk, *id, content),
        Call::Read(id, first) => twin::read(&b.cat, &b.disk, *id, *first, &mut b.out),
        Call::Breaks(id) => twin::breaks(&b.cat, *id),
        Call::Free => twin::free(&b.cat),
        Call::Check => twin::check(&b.cat, &b.disk),
        Call::Which(n) => twin::which(&b.cat, *n, &mut b.list),
    }
}

/// Makes one call on both, and answers what both answered.
pub fn agree(call: &Call, proved: &mut Buffers, twin: &mut Buffers) -> Result<u64, u8> {
    let answer = on_proved(call, proved);
    assert_eq!(on_twin(call, twin), answer, "{call:?}");
    assert!(proved == twin, "the bytes after {call:?}");
    answer
}

//! What is timed: one call with its buffers, on one of the implementations.

use crate::builds::{answer, Build};
use event_disk::{Refusal, Which};

/// An implementation. The proved one stands twice, so that the ratio of its two series shows the noise of the run. Other
/// builds of the manager are there if they are asked for.
#[derive(Clone, Copy, Debug, PartialEq, Eq)]
pub enum Side {
    Proved,
    Twin,
    Model,
    ProvedAgain,
    Beside(&'static Build),
}

impl Side {
    /// Those that are in every run.
    pub const ALL: [Side; 4] = [Side::Proved, Side::Twin, Side::Model, Side::ProvedAgain];

    pub fn name(self) -> &'static str {
        match self {
            Side::Proved => "proved",
            Side::Twin => "twin",
            Side::Model => "model",
            Side::ProvedAgain => "proved-again",
            Side::Beside(build) => &build.name,
        }
    }
}

/// A call of the manager. Reads are of one page and of a whole file.
#[derive(Clone, Copy, Debug, PartialEq, Eq)]
pub enum Call {
    Format,
    Add,
    Remove,
    Replace,
    ReadPage,
    ReadFile,
    Breaks,
    Free,
    Check,
    Which,
}

impl Call {
    pub const ALL: [Call; 10] = [
        Call::Format,
        Call::Add,
        Call::Remove,
        Call::Replace,
        Call::ReadPage,
        Call::ReadFile,
        Call::Breaks,
        Call::Free,
        Call::Check,
        Call::Which,
    ];

    pub fn name(self) -> &'static str {
        match self {
            Call::Format => "format",
            Call::Add => "add",
            Call::Remove => "remove",
            Call::Replace => "replace",
            Call::ReadPage => "read-page",
            Call::ReadFile => "read-file",
            Call::Breaks => "breaks",
            Call::Free => "free",
            Call::Check => "check",
            Call::Which => "which",
        }
    }

    /// About how many pages the call moves on a disk with files of so many blocks.
    pub fn pages(self, file_blocks: usize) -> usize {
        match self {
            Call::Add | Call::Remove | Call::ReadFile => file_blocks,
            Call::Replace => 2 * file_blocks,
            _ => 1,
        }
    }
}

/// A quality letter, and its place on the disk.
#[derive(Clone, Copy)]
pub struct Letter {
    pub place: usize,
    pub letter: u8,
}

/// The buffers and numbers of one call, but for its catalogue.
pub struct Lent<'a> {
    pub disk: &'a mut [u8],
    /// The letter that the stored file has to have before a replacement, which may write another one there.
    pub raw: Option<Letter>,
    pub content: &'a [u8],
    pub out: &'a mut [u8],
    pub id: u16,
    /// The blocks for which removals are listed, and the list.
    pub wanted: u64,
    pub list: &'a mut [u16],
}

impl Lent<'_> {
    /// Puts the letter back that the call goes by.
    pub fn put_letter(&mut self) {
        if let Some(Letter { place, letter }) = self.raw {
            self.disk[place] = letter;
        }
    }
}

/// Makes one call.
pub fn make(side: Side, call: Call, cat: &mut [u8], lent: &mut Lent) -> Result<u64, u8> {
    match side {
        Side::Proved | Side::ProvedAgain => on_proved(call, cat, lent).map_err(Refusal::number),
        Side::Twin => on_twin(call, cat, lent),
        Side::Model => on_model(call, cat, lent),
        Side::Beside(build) => answer(on_build(build, call, cat, lent)),
    }
}

fn on_proved(call: Call, cat: &mut [u8], lent: &mut Lent) -> Result<u64, Refusal> {
    match call {
        Call::Format => event_disk::format(cat, lent.disk),
        Call::Add => event_disk::add(cat, lent.disk, lent.id, lent.content),
        Call::Remove => event_disk::remove(cat, lent.disk, lent.id),
        Call::Replace => event_disk::replace(cat, lent.disk, lent.id, lent.content),
        Call::ReadPage | Call::ReadFile => event_disk::read(cat, lent.disk, lent.id, 0, lent.out),
        Call::Breaks => event_disk::breaks(cat, lent.id),
        Call::Free => event_disk::free(cat),
        Call::Check => event_disk::check(cat, lent.disk),
        Call::Which => event_disk::which(cat, lent.wanted, lent.list).map(number),
    }
}

/// The number of an answer of which.
fn number(answer: Which) -> u64 {
    match answer {
        Which::FitsAlready => twin::FITS_ALREADY,
        Which::Removals(count) => count as u64,
    }
}

fn on_twin(call: Call, cat: &mut [u8], lent: &mut Lent) -> Result<u64, u8> {
    match call {
        Call::Format => twin::format(cat, lent.disk),
        Call::Add => twin::add(cat, lent.disk, lent.id, lent.content),
        Call::Remove => twin::remove(cat, lent.disk, lent.id),
        Call::Replace => twin::replace(cat, lent.disk, lent.id, lent.content),
        Call::ReadPage | Call::ReadFile => twin::read(cat, lent.disk, lent.id, 0, lent.out),
        Call::Breaks => twin::breaks(cat, lent.id),
        Call::Free => twin::free(cat),
        Call::Check => twin::check(cat, lent.disk),
        Call::Which => twin::which(cat, lent.wanted, lent.list),
    }
}

fn on_model(call: Call, cat: &mut [u8], lent: &mut Lent) -> Result<u64, u8> {
    match call {
        Call::Format => model::format(cat, lent.disk),
        Call::Add => model::add(cat, lent.disk, lent.id, lent.content),
        Call::Remove => model::remove(cat, lent.disk, lent.id),
        Call::Replace => model::replace(cat, lent.disk, lent.id, lent.content),
        Call::ReadPage | Call::ReadFile => model::read(cat, lent.disk, lent.id, 0, lent.out),
        Call::Breaks => model::breaks(cat, lent.id),
        Call::Free => model::free(cat),
        Call::Check => model::check(cat, lent.disk),
        Call::Which => model::which(cat, lent.wanted, lent.list),
    }
}

fn on_build(build: &Build, call: Call, cat: &mut [u8], lent: &mut Lent) -> i64 {
    match call {
        Call::Format => build.calls.format(cat, lent.disk),
        Call::Add => build.calls.add(cat, lent.disk, lent.id, lent.content),
        Call::Remove => build.calls.remove(cat, lent.disk, lent.id),
        Call::Replace => build.calls.replace(cat, lent.disk, lent.id, lent.content),
        Call::ReadPage | Call::ReadFile => build.calls.read(cat, lent.disk, lent.id, 0, lent.out),
        Call::Breaks => build.calls.breaks(cat, lent.id),
        Call::Free => build.calls.free(cat),
        Call::Check => build.calls.check(cat, lent.disk),
        Call::Which => build.calls.which(cat, lent.wanted, lent.list),
    }
}

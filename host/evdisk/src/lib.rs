//! The tool `evdisk`: event disks kept in files, for station engineers and duty seismologists.
//!
//! A disk is kept as two files, the image of its blocks and its catalogue, because they are written in two ways: the
//! image in place, so that it can be a real device, and the catalogue as a whole, beside the old one and then renamed.
//! All that is decided about a disk is decided by the proved calls of the crate `event_disk`; this crate reads and
//! writes files, shows what the catalogue lists, and sees to it that a change to a disk is done whole or not
//! at all: see [`commit`].

#![forbid(unsafe_code)]

pub mod arguments;
pub mod changing;
pub mod checksum;
pub mod command;
pub mod commit;
pub mod date;
pub mod event_file;
pub mod failure;
pub mod files;
pub mod help;
pub mod json;
pub mod looking;
pub mod map;
pub mod paths;
pub mod places;
pub mod redo;
pub mod removal;
pub mod replacing;
pub mod rows;
pub mod shift_log;
pub mod store;
pub mod svg;
pub mod table;
pub mod which;

pub use failure::Failure;
use std::ffi::OsString;

/// Runs the command that the words of a command line ask for. What it says goes to `out`.
pub fn run(words: &[OsString], out: &mut Vec<u8>) -> Result<(), Failure> {
    let Some((first, rest)) = words.split_first() else {
        return Err(Failure::usage("which command? (evdisk --help lists them)"));
    };
    match first.to_str() {
        Some("--help" | "-h" | "help") => out.extend_from_slice(help::general().as_bytes()),
        Some("--version" | "-V") => out.extend_from_slice(help::version().as_bytes()),
        _ => return command::named(first)?.run(rest, out),
    }
    Ok(())
}

//! The commands: their names, their arguments, their help and what does them.

use crate::arguments::Arguments;
use crate::{changing, help, looking, replacing, which, Failure};
use std::ffi::{OsStr, OsString};

/// A command of the tool.
#[derive(Debug)]
pub struct Command {
    pub name: &'static str,
    /// The arguments that must stand, in order.
    pub places: &'static [&'static str],
    /// The option with a value, and what the value is, that may stand instead of the last of them.
    pub instead: Option<(&'static str, &'static str)>,
    /// The options with a value, and what the value is.
    pub valued: &'static [(&'static str, &'static str)],
    /// The options without a value.
    pub flags: &'static [&'static str],
    /// What it does, in one line.
    pub short: &'static str,
    /// What else there is to know.
    pub long: &'static str,
    /// What does it, and writes what it says.
    pub does: fn(&Arguments, &mut Vec<u8>) -> Result<(), Failure>,
}

/// All commands, in the order of the help.
pub static COMMANDS: [Command; 12] = [
    Command {
        name: "format",
        places: &["IMAGE"],
        instead: None,
        valued: &[("--blocks", "C")],
        flags: &["--large", "--force", "--json"],
        short: "make a disk of C blocks with no file",
        long: help::FORMAT,
        does: changing::format,
    },
    Command {
        name: "add",
        places: &["IMAGE", "ID", "FILE"],
        instead: None,
        valued: &[],
        flags: &["--json"],
        short: "add the event in FILE",
        long: help::ADD,
        does: changing::add,
    },
    Command {
        name: "remove",
        places: &["IMAGE", "ID"],
        instead: None,
        valued: &[],
        flags: &["--dry-run", "--json"],
        short: "remove an event and join free space",
        long: help::REMOVE,
        does: changing::remove,
    },
    Command {
        name: "replace",
        places: &["IMAGE", "ID", "FILE"],
        instead: None,
        valued: &[],
        flags: &["--json"],
        short: "put the reviewed event in FILE in the place of the raw one",
        long: help::REPLACE,
        does: replacing::replace,
    },
    Command {
        name: "read",
        places: &["IMAGE", "ID"],
        instead: None,
        valued: &[("--first", "P"), ("--pages", "N"), ("--output", "FILE")],
        flags: &[],
        short: "write pages of an event to standard output or to a file",
        long: help::READ,
        does: looking::read,
    },
    Command {
        name: "list",
        places: &["IMAGE"],
        instead: None,
        valued: &[],
        flags: &["--json"],
        short: "list the events, the free blocks and where they lie",
        long: help::LIST,
        does: looking::list,
    },
    Command {
        name: "breaks",
        places: &["IMAGE", "ID"],
        instead: None,
        valued: &[],
        flags: &["--json"],
        short: "say how often the drive seeks within an event",
        long: help::BREAKS,
        does: looking::breaks,
    },
    Command {
        name: "free",
        places: &["IMAGE"],
        instead: None,
        valued: &[],
        flags: &["--json"],
        short: "say how many blocks are free",
        long: help::FREE,
        does: looking::free,
    },
    Command {
        name: "which",
        places: &["IMAGE", "N"],
        instead: Some(("--file", "FILE")),
        valued: &[],
        flags: &["--json"],
        short: "list the removals of which one would make room for N blocks, or for the event in FILE",
        long: help::WHICH,
        does: which::which,
    },
    Command {
        name: "check",
        places: &["IMAGE"],
        instead: None,
        valued: &[],
        flags: &["--json"],
        short: "check that the catalogue is sound and fits the image",
        long: help::CHECK,
        does: looking::check,
    },
    Command {
        name: "map",
        places: &["IMAGE"],
        instead: None,
        valued: &[("--width", "W"), ("--svg", "FILE")],
        flags: &[],
        short: "draw the disk",
        long: help::MAP,
        does: looking::map,
    },
    Command {
        name: "log",
        places: &["IMAGE"],
        instead: None,
        valued: &[],
        flags: &["--json"],
        short: "show the shift log: what each removal and replacement copied",
        long: help::LOG,
        does: looking::log,
    },
];

/// The command of this name.
pub fn named(word: &OsStr) -> Result<&'static Command, Failure> {
    let found = COMMANDS.iter().find(|command| word == command.name);
    let unknown = || format!("there is no command '{}' (evdisk --help lists them)", word.display());
    found.ok_or_else(|| Failure::Usage(unknown()))
}

impl Command {
    /// Runs the command with the words after its name.
    pub fn run(&self, words: &[OsString], out: &mut Vec<u8>) -> Result<(), Failure> {
        let asks = |word: &&OsString| *word == "--help" || *word == "-h";
        if words.iter().take_while(|word| *word != "--").any(|word| asks(&word)) {
            out.extend_from_slice(help::of(self).as_bytes());
            return Ok(());
        }
        (self.does)(&Arguments::of_words(self, words)?, out)
    }

    /// The options with a value.
    pub fn with_value(&self) -> impl Iterator<Item = (&'static str, &'static str)> {
        self.instead.into_iter().chain(self.valued.iter().copied())
    }

    /// How the command is written.
    pub fn usage(&self) -> String {
        let mut words = vec!["evdisk".to_string(), self.name.to_string()];
        words.extend(self.places.iter().map(|place| place.to_string()));
        if let (Some((option, value)), Some(last)) = (self.instead, words.last_mut()) {
            *last = format!("({last} | {option} {value})");
        }
        words.extend(self.valued.iter().map(|(option, value)| format!("[{option} {value}]")));
        words.extend(self.flags.iter().map(|flag| format!("[{flag}]")));
        words.join(" ")
    }

    /// The failure of a command that is not written so.
    pub fn misused(&self, why: &str) -> Failure {
        Failure::Usage(format!("{why}\nusage: {}", self.usage()))
    }
}

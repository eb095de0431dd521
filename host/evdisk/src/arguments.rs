//! The words after a command's name, told apart into places, options with a value and plain options.

use crate::command::Command;
use crate::paths::Paths;
use crate::Failure;
use std::collections::BTreeMap;
use std::ffi::{OsStr, OsString};
use std::path::{Path, PathBuf};

/// The arguments of a command, as many and such as it takes.
#[derive(Debug, Default)]
pub struct Arguments {
    places: Vec<OsString>,
    options: BTreeMap<&'static str, OsString>,
}

impl Arguments {
    /// Tells the words of a command apart.
    pub fn of_words(command: &Command, words: &[OsString]) -> Result<Arguments, Failure> {
        let mut found = Arguments::default();
        let mut words = words.iter();
        let mut only_places = false;
        while let Some(word) = words.next() {
            if word == "--" && !only_places {
                only_places = true;
            } else if is_option(word) && !only_places {
                found.option(command, word, &mut words)?;
            } else {
                found.places.push(word.clone());
            }
        }
        found.counted(command)
    }

    /// Takes an option, and its value if it has one, from this word or the next.
    fn option<'a>(
        &mut self,
        command: &Command,
        word: &OsStr,
        words: &mut impl Iterator<Item = &'a OsString>,
    ) -> Result<(), Failure> {
        let text = word.to_string_lossy();
        let (name, joined) = match text.split_once('=') {
            Some((name, _)) => (name, Some(after_equals(word))),
            None => (&*text, None),
        };
        let wrong = |why: &str| command.misused(&format!("{name} {why}"));
        let (name_kept, value) = if let Some(flag) = command.flags.iter().copied().find(|flag| *flag == name) {
            joined.is_none().then_some((flag, OsString::new())).ok_or_else(|| wrong("takes no value"))?
        } else if let Some((option, _)) = command.with_value().find(|(option, _)| *option == name) {
            let value = joined.or_else(|| words.next().cloned());
            (option, value.ok_or_else(|| wrong("needs a value"))?)
        } else {
            return Err(wrong("is no option of this command"));
        };
        match self.options.insert(name_kept, value) {
            None => Ok(()),
            Some(_) => Err(wrong("stands twice")),
        }
    }

    /// These arguments, if they are as many as the command has places, or one less with an option instead of the last.
    fn counted(self, command: &Command) -> Result<Arguments, Failure> {
        let instead = command.instead.filter(|(option, _)| self.has(option));
        let places = &command.places[..command.places.len() - instead.iter().count()];
        if let Some(missing) = places.get(self.places.len()) {
            return Err(command.misused(&format!("{missing} is missing")));
        }
        match self.places.get(places.len()) {
            None => Ok(self),
            Some(extra) => Err(command.misused(&format!("'{}' is too much", extra.display()))),
        }
    }

    /// The files of the disk, whose image is the first place of each command.
    pub fn paths(&self) -> Paths {
        Paths::of(Path::new(&self.places[0]))
    }

    /// The id, which is the second place where a command has one.
    pub fn id(&self) -> Result<u16, Failure> {
        let word = &self.places[1];
        let id = digits(word).and_then(|number| u16::try_from(number).ok());
        id.ok_or_else(|| Failure::usage(format!("'{}' is no id: an id is a number from 1 to 65535", word.display())))
    }

    /// The number of blocks in the second place, unless an option stands instead.
    pub fn blocks(&self) -> Result<Option<u64>, Failure> {
        self.places.get(1).map(|word| number(word, "N")).transpose()
    }

    /// The file in the third place.
    pub fn file(&self) -> &Path {
        Path::new(&self.places[2])
    }

    /// Whether an option is there.
    pub fn has(&self, name: &str) -> bool {
        self.options.contains_key(name)
    }

    /// The number that an option gives, if it is there.
    pub fn number(&self, name: &str) -> Result<Option<u64>, Failure> {
        self.options.get(name).map(|word| number(word, name)).transpose()
    }

    /// The file that an option names, if it is there.
    pub fn option_file(&self, name: &str) -> Option<PathBuf> {
        self.options.get(name).map(PathBuf::from)
    }
}

/// Whether a word is an option: it starts with a dash, and is neither a lone dash nor a negative number.
fn is_option(word: &OsStr) -> bool {
    matches!(word.as_encoded_bytes(), [b'-', next, ..] if !next.is_ascii_digit())
}

/// What follows the first `=` of a word.
fn after_equals(word: &OsStr) -> OsString {
    use std::os::unix::ffi::OsStrExt;
    let bytes = word.as_bytes();
    let at = bytes.iter().position(|byte| *byte == b'=').map_or(bytes.len(), |at| at + 1);
    OsStr::from_bytes(&bytes[at..]).to_os_string()
}

/// The number that a word is. One too large to count is as large as can be counted.
fn number(word: &OsStr, name: &str) -> Result<u64, Failure> {
    digits(word).ok_or_else(|| Failure::usage(format!("{name}: '{}' is no number", word.display())))
}

/// The number that decimal digits stand for, and nothing but digits.
fn digits(word: &OsStr) -> Option<u64> {
    let text = word.to_str().filter(|text| !text.is_empty() && text.bytes().all(|byte| byte.is_ascii_digit()))?;
    Some(text.parse().unwrap_or(u64::MAX))
}

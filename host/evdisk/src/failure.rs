//! Why a command was not done, and the status that the tool then ends with.

use event_disk::Refusal;
use std::fmt;
use std::io;
use std::path::Path;

/// A command that was not done.
#[derive(Clone, Debug, PartialEq, Eq)]
pub enum Failure {
    /// The manager refused it, and words that were added to that: status 1.
    Refused(Refusal, String),
    /// The command line is wrong: status 2.
    Usage(String),
    /// A file could not be read or written: status 3.
    File(String),
}

impl Failure {
    /// A wrong command line.
    pub fn usage(why: impl Into<String>) -> Failure {
        Failure::Usage(why.into())
    }

    /// What went wrong with a file.
    pub fn file(path: &Path, why: impl fmt::Display) -> Failure {
        Failure::File(format!("{}: {why}", path.display()))
    }

    /// Standard output could not be written.
    pub fn output(why: io::Error) -> Failure {
        Failure::File(format!("standard output: {why}"))
    }

    /// The status that the tool ends with.
    pub fn status(&self) -> u8 {
        match self {
            Failure::Refused(..) => 1,
            Failure::Usage(_) => 2,
            Failure::File(_) => 3,
        }
    }

    /// The same failure, with words added to its message.
    pub fn and(self, words: &str) -> Failure {
        let added = |why: String| format!("{why}; {words}");
        match self {
            Failure::Refused(refusal, more) => Failure::Refused(refusal, added(more)),
            Failure::Usage(why) => Failure::Usage(added(why)),
            Failure::File(why) => Failure::File(added(why)),
        }
    }
}

impl From<Refusal> for Failure {
    fn from(refusal: Refusal) -> Failure {
        Failure::Refused(refusal, String::new())
    }
}

impl fmt::Display for Failure {
    fn fmt(&self, f: &mut fmt::Formatter<'_>) -> fmt::Result {
        match self {
            Failure::Refused(refusal, more) => write!(f, "refused {}: {refusal}{more}", refusal.number()),
            Failure::Usage(why) | Failure::File(why) => f.write_str(why),
        }
    }
}

impl std::error::Error for Failure {}

#[cfg(test)]
mod tests {
    use super::*;

    #[test]
    fn each_failure_has_its_words_and_its_status() {
        let refused = Failure::from(Refusal::IdMissing);
        assert_eq!((refused.to_string().as_str(), refused.status()), ("refused 6: no file has this id", 1));
        let refused = refused.and("look elsewhere");
        let words = "refused 6: no file has this id; look elsewhere";
        assert_eq!((refused.to_string().as_str(), refused.status()), (words, 1));
        let usage = Failure::usage("no").and("yes");
        assert_eq!((usage.to_string().as_str(), usage.status()), ("no; yes", 2));
        let file = Failure::file(Path::new("a/b"), "gone").and("look elsewhere");
        assert_eq!((file.to_string().as_str(), file.status()), ("a/b: gone; look elsewhere", 3));
    }
}

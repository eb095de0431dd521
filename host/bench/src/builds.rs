//! Other builds of the manager, which take part beside the proved one.

use crate::library::Library;
use crate::sides::Call;
use std::path::PathBuf;
use twin::{Version, BLOCK};

/// A build that was asked for: the name that the tables give it, and its file.
#[derive(Clone, Debug, PartialEq, Eq)]
pub struct Named {
    pub name: String,
    pub file: PathBuf,
}

/// A build that was loaded.
#[derive(Debug)]
pub struct Build {
    pub name: String,
    pub calls: Library,
}

/// Each build is one that was loaded once.
impl PartialEq for Build {
    fn eq(&self, other: &Build) -> bool {
        std::ptr::eq(self, other)
    }
}

impl Eq for Build {}

impl Build {
    /// Loads a build, which stays to the end of the program.
    pub fn load(named: Named) -> Result<&'static Build, String> {
        let calls = Library::load(&named.file).map_err(|what| format!("{}: {what}", named.file.display()))?;
        Ok(Box::leak(Box::new(Build { name: named.name, calls })))
    }

    /// Whether the build has a call: those from before W1 have no replace, and those from before W4 no which.
    pub fn has(&self, call: Call) -> bool {
        match call {
            Call::Replace => self.calls.has_replace(),
            Call::Which => self.calls.has_which(),
            _ => true,
        }
    }

    /// Whether the build has a version: one that has not refuses the length of its catalogue.
    pub fn serves(&self, version: Version) -> bool {
        answer(self.calls.format(&mut vec![0; version.catalogue], &[0; BLOCK])) != Err(1)
    }
}

/// The answer, or the number of the refusal, that an exported call gives back.
pub fn answer(number: i64) -> Result<u64, u8> {
    u64::try_from(number).map_err(|_| u8::try_from(number.unsigned_abs()).unwrap_or(u8::MAX))
}

#[cfg(test)]
mod tests {
    use super::*;

    #[test]
    fn numbers_below_0_are_refusals() {
        assert_eq!([0, 7, -1, -11].map(answer), [Ok(0), Ok(7), Err(1), Err(11)]);
        assert_eq!(answer(i64::MIN), Err(u8::MAX));
    }

    #[test]
    fn a_file_that_is_no_build_is_named_once() {
        for file in ["no/such/file.so", "Cargo.toml"] {
            let what = Build::load(Named { name: "old".into(), file: file.into() }).expect_err(file);
            assert!(what.starts_with(&format!("{file}: ")), "{what}");
            assert_eq!(what.matches(file).count(), 1, "{what}");
        }
    }
}

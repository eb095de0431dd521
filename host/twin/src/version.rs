//! The versions of the catalogue: all numbers in which they differ.

/// A version of the catalogue.
#[derive(Clone, Copy, Debug, PartialEq, Eq)]
pub struct Version {
    /// The number that a catalogue starts with.
    pub number: u16,
    /// The bytes of a field for a number of blocks. All other fields have 2.
    pub field: usize,
    /// The bytes of the catalogue.
    pub catalogue: usize,
    /// The greatest C. It is the length of a section of the greatest height.
    pub most_blocks: usize,
}

impl Version {
    /// Version 1.
    pub const SMALL: Version = Version { number: 1, field: 2, catalogue: 4096, most_blocks: 4096 };
    /// Version 2.
    pub const LARGE: Version = Version { number: 2, field: 4, catalogue: 16_384, most_blocks: 1_048_576 };
    /// All versions by rising number.
    pub const ALL: [Version; 2] = [Version::SMALL, Version::LARGE];

    /// The version of a buffer of so many bytes.
    pub fn of_length(bytes: usize) -> Option<Version> {
        Version::ALL.into_iter().find(|version| version.catalogue == bytes)
    }
}

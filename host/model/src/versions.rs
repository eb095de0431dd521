//! The versions of the catalogue, a row for each. All that depends on the version is found here.

/// A version of the catalogue.
#[derive(Clone, Copy, Debug, PartialEq, Eq)]
pub struct Version {
    /// The number that a catalogue begins with.
    pub number: u16,
    /// The bytes of a field for a number of blocks: C, n, first block and length. Other fields have 2 bytes.
    pub field: usize,
    /// The bytes of the catalogue.
    pub catalogue: usize,
    /// The greatest C, which is also the greatest length of a section.
    pub most_blocks: usize,
}

impl Version {
    /// The small catalogue.
    pub const SMALL: Version = Version { number: 1, field: 2, catalogue: 4096, most_blocks: 4096 };
    /// The large catalogue.
    pub const LARGE: Version = Version { number: 2, field: 4, catalogue: 16_384, most_blocks: 1_048_576 };
    /// All versions.
    pub const ALL: [Version; 2] = [Version::SMALL, Version::LARGE];

    /// The version that format makes in a buffer of so many bytes.
    pub fn of_length(bytes: usize) -> Option<Version> {
        Version::ALL.into_iter().find(|version| version.catalogue == bytes)
    }

    /// The version of this number that suits a buffer of so many bytes.
    pub fn of_buffer(bytes: usize, number: u16) -> Option<Version> {
        Version::ALL.into_iter().find(|version| version.catalogue == bytes && version.number == number)
    }

    /// The greatest height of a section.
    pub fn most_height(self) -> u8 {
        self.most_blocks.ilog2() as u8
    }
}

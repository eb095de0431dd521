//! Why a call is refused.

use std::fmt;

/// A refusal, with the number that the documents give it. A refused call has changed no byte.
#[derive(Clone, Copy, Debug, PartialEq, Eq, PartialOrd, Ord, Hash)]
#[repr(u8)]
pub enum Refusal {
    /// The catalogue buffer is neither 4,096 nor 16,384 bytes long.
    CatalogueLength = 1,
    /// The disk buffer is not 1 to 4,096 blocks of 512 bytes long, or 1 to 1,048,576 with the large catalogue (format
    /// alone).
    NoDisk = 2,
    /// The catalogue is not sound. A version that does not suit its length is not.
    NotSound = 3,
    /// The disk buffer is not as long as the catalogue says.
    DiskLength = 4,
    /// The id is 0.
    IdZero = 5,
    /// No file has this id.
    IdMissing = 6,
    /// A file has this id already.
    IdThere = 7,
    /// The content or output buffer is empty or no multiple of 512 bytes long, or a number of blocks is 0 (which).
    BufferLength = 8,
    /// The pages go past the end of the file.
    PastEnd = 9,
    /// There are 64 files already.
    FilesFull = 10,
    /// There are fewer free blocks than the content has. For a replacement the blocks of the old file count as free.
    NoSpace = 11,
    /// The first record's quality letter, byte 6, is none of R, D, Q, M (replace alone, and before 11).
    LetterUnknown = 12,
    /// The quality letter does not rank above that of the stored file (replace alone, and before 11).
    LetterNotAbove = 13,
    /// The list has not 64 places (which alone).
    ListLength = 14,
}

impl Refusal {
    /// All refusals by rising number.
    pub const ALL: [Refusal; 14] = [
        Refusal::CatalogueLength,
        Refusal::NoDisk,
        Refusal::NotSound,
        Refusal::DiskLength,
        Refusal::IdZero,
        Refusal::IdMissing,
        Refusal::IdThere,
        Refusal::BufferLength,
        Refusal::PastEnd,
        Refusal::FilesFull,
        Refusal::NoSpace,
        Refusal::LetterUnknown,
        Refusal::LetterNotAbove,
        Refusal::ListLength,
    ];

    /// The number that the documents give this refusal.
    pub fn number(self) -> u8 {
        self as u8
    }

    /// The refusal of a number, if it is one.
    pub fn of_number(number: u64) -> Option<Refusal> {
        Refusal::ALL.into_iter().find(|r| u64::from(r.number()) == number)
    }
}

impl fmt::Display for Refusal {
    fn fmt(&self, f: &mut fmt::Formatter<'_>) -> fmt::Result {
        f.write_str(match self {
            Refusal::CatalogueLength => "the catalogue is neither 4,096 nor 16,384 bytes long",
            Refusal::NoDisk => {
                "the disk is not 1 to 4,096 blocks of 512 bytes long, or 1 to 1,048,576 with the large catalogue"
            }
            Refusal::NotSound => "the catalogue is not sound",
            Refusal::DiskLength => "the disk is not as long as the catalogue says",
            Refusal::IdZero => "0 is no id",
            Refusal::IdMissing => "no file has this id",
            Refusal::IdThere => "a file has this id already",
            Refusal::BufferLength => "the length is 0 or no multiple of 512 bytes",
            Refusal::PastEnd => "the pages go past the end of the file",
            Refusal::FilesFull => "there are 64 files already",
            Refusal::NoSpace => "there are fewer free blocks than the file needs",
            Refusal::LetterUnknown => "the new file's quality letter is none of R, D, Q and M",
            Refusal::LetterNotAbove => "the new file's quality letter does not rank above the stored one",
            Refusal::ListLength => "the list has not 64 places",
        })
    }
}

impl std::error::Error for Refusal {}

#[cfg(test)]
mod tests {
    use super::*;
    use crate::Version;

    /// A number with a comma before each three digits from the end.
    fn with_commas(number: usize) -> String {
        match number {
            0..=999 => number.to_string(),
            _ => format!("{},{:03}", with_commas(number / 1000), number % 1000),
        }
    }

    #[test]
    fn the_words_have_the_limits_of_every_version() {
        for Version { catalogue, most_blocks, .. } in Version::ALL {
            let (length, disk) = (Refusal::CatalogueLength.to_string(), Refusal::NoDisk.to_string());
            assert!(length.contains(&format!(" {} ", with_commas(catalogue))), "{length}");
            assert!(disk.contains(&format!("1 to {} ", with_commas(most_blocks))), "{disk}");
        }
    }

    #[test]
    fn each_number_has_its_refusal() {
        for number in 0..=u64::from(u8::MAX) + 1 {
            let found = Refusal::of_number(number).map(|refusal| u64::from(refusal.number()));
            assert_eq!(found, (1..=14).contains(&number).then_some(number));
        }
    }
}

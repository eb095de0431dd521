//! The versions of the catalogue. What one version has other than another stands in this table, and nowhere else.

/// A version of the catalogue.
#[derive(Clone, Copy, Debug, PartialEq, Eq)]
pub struct Version {
    /// The number in the catalogue's first field.
    pub number: u16,
    /// The bytes of a field that holds a number of blocks or of a block. All other fields have 2.
    pub field: usize,
    /// The bytes of the catalogue.
    pub catalogue: usize,
    /// The most blocks of a disk.
    pub most_blocks: usize,
}

impl Version {
    /// The small catalogue.
    pub const SMALL: Version = Version { number: 1, field: 2, catalogue: 4096, most_blocks: 4096 };
    /// The large catalogue.
    pub const LARGE: Version = Version { number: 2, field: 4, catalogue: 16_384, most_blocks: 1 << 20 };
    /// All versions by rising number, and so by rising length of the catalogue and rising most blocks.
    pub const ALL: [Version; 2] = [Version::SMALL, Version::LARGE];

    /// The version that `format` makes in a catalogue of so many bytes.
    pub fn of_length(bytes: usize) -> Option<Version> {
        Version::ALL.into_iter().find(|version| version.catalogue == bytes)
    }

    /// The version that a catalogue's length and first field name.
    pub fn of_catalogue(cat: &[u8]) -> Option<Version> {
        let number = u16::from_be_bytes(*cat.first_chunk()?);
        Version::ALL.into_iter().find(|version| version.catalogue == cat.len() && version.number == number)
    }

    /// The version with the shortest catalogue for a disk of so many blocks, and the largest one if none has so many.
    pub fn for_blocks(blocks: u64) -> Version {
        let holds = |version: &Version| blocks <= version.most_blocks as u64;
        Version::ALL.into_iter().find(holds).unwrap_or(Version::LARGE)
    }
}

#[cfg(test)]
mod tests {
    use super::*;

    #[test]
    fn a_catalogue_of_either_length_has_a_version_and_no_other_has() {
        let lengths = [0, 1, 4095, 4096, 4097, 8192, 16_383, 16_384, 16_385, usize::MAX];
        let found: Vec<_> = lengths.into_iter().filter_map(Version::of_length).collect();
        assert_eq!(found, Version::ALL);
        assert_eq!(Version::of_length(4096), Some(Version::SMALL));
        assert_eq!(Version::of_length(16_384), Some(Version::LARGE));
    }

    #[test]
    fn a_version_must_suit_its_catalogue() {
        for version in Version::ALL {
            for number in 0..=3u16 {
                let mut cat = vec![0; version.catalogue];
                cat[..2].copy_from_slice(&number.to_be_bytes());
                assert_eq!(Version::of_catalogue(&cat), (number == version.number).then_some(version));
                cat.push(0);
                assert_eq!(Version::of_catalogue(&cat), None);
            }
        }
        assert_eq!(Version::of_catalogue(&[]), None);
        assert_eq!(Version::of_catalogue(&[0]), None);
    }

    #[test]
    fn a_disk_gets_the_small_catalogue_up_to_4096_blocks() {
        for (blocks, version) in [(0, Version::SMALL), (1, Version::SMALL), (4096, Version::SMALL)] {
            assert_eq!(Version::for_blocks(blocks), version);
        }
        for blocks in [4097, 1_048_576, 1_048_577, u64::MAX] {
            assert_eq!(Version::for_blocks(blocks), Version::LARGE);
        }
    }

    #[test]
    fn fields_hold_all_numbers_of_blocks_and_all_pairs_fit() {
        for Version { field, catalogue, most_blocks, .. } in Version::ALL {
            assert!(most_blocks.is_power_of_two() && most_blocks.ilog2() < 8 * field as u32);
            // Each file has at most as many pieces as there are heights, and so have the free blocks.
            let heights = most_blocks.ilog2() as usize + 1;
            let entries = crate::MOST_FILES * (2 + field + heights * 2 * field);
            assert!(2 + field + 2 + entries + heights * 2 * field <= catalogue);
        }
    }
}

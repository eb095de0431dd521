//! The disks on which the calls are timed, by their numbers.

use twin::Version;

/// A disk and its files, all of the same length.
#[derive(Clone, Copy, Debug)]
pub struct Shape {
    pub name: &'static str,
    pub version: Version,
    pub blocks: usize,
    pub files: usize,
    /// The blocks of each file.
    pub file_blocks: usize,
}

impl Shape {
    /// By rising C. Files have as many pieces as so many files of one length can have on the disk.
    pub const ALL: [Shape; 7] = [
        Shape::small("261-8", 261, 8, 31),
        Shape::large("261-8-large", 261, 8, 31),
        Shape::small("261-64", 261, 64, 3),
        Shape::small("4096-8", 4096, 8, 511),
        Shape::small("4095-64", 4095, 64, 63),
        Shape::large("1048576-8", 1_048_576, 8, 131_071),
        Shape::large("1048576-64", 1_048_576, 64, 16_383),
    ];

    const fn small(name: &'static str, blocks: usize, files: usize, file_blocks: usize) -> Shape {
        Shape { name, version: Version::SMALL, blocks, files, file_blocks }
    }

    const fn large(name: &'static str, blocks: usize, files: usize, file_blocks: usize) -> Shape {
        Shape { name, version: Version::LARGE, blocks, files, file_blocks }
    }

    pub fn named(name: &str) -> Option<Shape> {
        Shape::ALL.into_iter().find(|shape| shape.name == name)
    }

    /// The pairs of the catalogue: those of the files, and the free ones.
    pub fn pairs(&self) -> u32 {
        let free = self.blocks - self.files * self.file_blocks;
        self.files as u32 * self.file_blocks.count_ones() + free.count_ones()
    }
}

#[cfg(test)]
mod tests {
    use super::*;

    /// One block more in each file is too much, or gives it no more pieces.
    #[test]
    fn no_longer_files_have_more_pieces() {
        for shape in Shape::ALL {
            let longest = shape.blocks / shape.files;
            let most = (1..=longest).map(usize::count_ones).max();
            assert_eq!(Some(shape.file_blocks.count_ones()), most, "{}", shape.name);
        }
    }

    #[test]
    fn pairs_of_files_and_of_free_blocks() {
        let pairs = |name| Shape::named(name).map(|shape| shape.pairs());
        assert_eq!(pairs("261-8"), Some(8 * 5 + 3));
        assert_eq!(pairs("1048576-64"), Some(64 * 14 + 1));
        assert_eq!(pairs("1048576"), None);
    }
}

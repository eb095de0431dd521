//! The files of one disk, all beside its image.

use std::ffi::OsString;
use std::path::{Path, PathBuf};

/// The names of the files of a disk.
#[derive(Clone, Debug)]
pub struct Paths {
    /// The disk's blocks.
    pub image: PathBuf,
    /// The catalogue.
    pub catalogue: PathBuf,
    /// A catalogue being written.
    pub catalogue_new: PathBuf,
    /// A removal or replacement that is decided and not yet done whole.
    pub redo: PathBuf,
    /// A removal or replacement being written down, not yet decided.
    pub redo_new: PathBuf,
    /// The shift log.
    pub log: PathBuf,
}

impl Paths {
    /// The files of the disk with this image.
    pub fn of(image: &Path) -> Paths {
        let beside = |ending: &str| {
            let mut name = OsString::from(image);
            name.push(ending);
            PathBuf::from(name)
        };
        Paths {
            image: image.to_path_buf(),
            catalogue: beside(".cat"),
            catalogue_new: beside(".cat.new"),
            redo: beside(".redo"),
            redo_new: beside(".redo.new"),
            log: beside(".log"),
        }
    }

    /// The folder of these files.
    pub fn folder(&self) -> &Path {
        match self.image.parent() {
            Some(parent) if !parent.as_os_str().is_empty() => parent,
            _ => Path::new("."),
        }
    }
}

#[cfg(test)]
mod tests {
    use super::*;

    #[test]
    fn the_files_stand_beside_the_image() {
        let paths = Paths::of(Path::new("/data/a.b.img"));
        assert_eq!(paths.catalogue, Path::new("/data/a.b.img.cat"));
        assert_eq!(paths.redo_new, Path::new("/data/a.b.img.redo.new"));
        assert_eq!(paths.folder(), Path::new("/data"));
        assert_eq!(Paths::of(Path::new("img")).folder(), Path::new("."));
    }
}

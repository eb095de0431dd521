//! Reading and writing files, with the file's name in every failure.

use crate::paths::Paths;
use crate::Failure;
use std::fs::{self, File, OpenOptions};
use std::io::{self, BufWriter, Read, Seek, SeekFrom, Write};
use std::ops::Range;
use std::os::unix::fs::FileExt;
use std::path::Path;

/// The bytes that are read at once of a file that is read in parts: a whole number of blocks.
const PART: usize = 2048 * event_disk::BLOCK;

/// Opens a file for reading.
pub fn open(path: &Path) -> Result<File, Failure> {
    File::open(path).map_err(|why| Failure::file(path, why))
}

/// Opens a file that is there for reading and writing.
pub fn open_to_write(path: &Path) -> Result<File, Failure> {
    OpenOptions::new().read(true).write(true).open(path).map_err(|why| Failure::file(path, why))
}

/// The bytes of an open file from where it stands, but no more than `most`.
pub fn read_at_most(file: &File, path: &Path, most: u64) -> Result<Vec<u8>, Failure> {
    let mut bytes = Vec::new();
    file.take(most).read_to_end(&mut bytes).map_err(|why| Failure::file(path, why))?;
    Ok(bytes)
}

/// The bytes of an open file from a place on, but no more than `most`.
pub fn read_from(mut file: &File, path: &Path, at: u64, most: u64) -> Result<Vec<u8>, Failure> {
    file.seek(SeekFrom::Start(at)).map_err(|why| Failure::file(path, why))?;
    read_at_most(file, path, most)
}

/// The length of an open file, which may be a device.
pub fn length(mut file: &File, path: &Path) -> Result<u64, Failure> {
    file.seek(SeekFrom::End(0)).map_err(|why| Failure::file(path, why))
}

/// Reads a range of an open file part by part, so that it need not be in memory at once, and gives each part with its
/// place to `each`.
pub fn read_parts(
    file: &File,
    path: &Path,
    range: Range<usize>,
    mut each: impl FnMut(usize, &[u8]),
) -> Result<(), Failure> {
    let mut part = vec![0; PART.min(range.len())];
    for at in range.clone().step_by(PART) {
        let bytes = &mut part[..PART.min(range.end - at)];
        file.read_exact_at(bytes, at as u64).map_err(|why| Failure::file(path, why))?;
        each(at, bytes);
    }
    Ok(())
}

/// Whether there is a file, or anything else, of this name.
pub fn is_there(path: &Path) -> Result<bool, Failure> {
    path.try_exists().map_err(|why| Failure::file(path, why))
}

/// Writes a file whole and has it last. What was there under this name is lost.
pub fn write(path: &Path, bytes: &[u8]) -> Result<(), Failure> {
    write_by(path, |file| file.write_all(bytes))
}

/// Writes a file whole, bit by bit, and has it last. What was there under this name is lost.
pub fn write_by(path: &Path, by: impl FnOnce(&mut BufWriter<File>) -> io::Result<()>) -> Result<(), Failure> {
    let written = File::create(path).and_then(|file| {
        let mut file = BufWriter::new(file);
        by(&mut file)?;
        file.into_inner()?.sync_all()
    });
    written.map_err(|why| Failure::file(path, why))
}

/// Writes a file that must not be there yet. If that fails, none is left behind.
pub fn write_new(path: &Path, bytes: &[u8]) -> Result<(), Failure> {
    make_new(path, |mut file| file.write_all(bytes))
}

/// Makes a file of zeros that must not be there yet. It takes no room where the file system can do without. If that
/// fails, none is left behind.
pub fn write_new_zeros(path: &Path, length: u64) -> Result<(), Failure> {
    make_new(path, |file| file.set_len(length))
}

/// Makes a file that must not be there yet, and has it last. If that fails, none is left behind.
fn make_new(path: &Path, make: impl FnOnce(&File) -> io::Result<()>) -> Result<(), Failure> {
    let file = OpenOptions::new().write(true).create_new(true).open(path).map_err(|why| Failure::file(path, why))?;
    make(&file).and_then(|()| file.sync_all()).map_err(|why| {
        let _ = fs::remove_file(path);
        Failure::file(path, why)
    })
}

/// Writes bytes at a place of an open file.
pub fn write_at(file: &File, path: &Path, at: u64, bytes: &[u8]) -> Result<(), Failure> {
    file.write_all_at(bytes, at).map_err(|why| Failure::file(path, why))
}

/// Has what was written to an open file last.
pub fn sync(file: &File, path: &Path) -> Result<(), Failure> {
    file.sync_all().map_err(|why| Failure::file(path, why))
}

/// Gives a file another name in one step, and has that last.
pub fn rename(paths: &Paths, from: &Path, to: &Path) -> Result<(), Failure> {
    fs::rename(from, to).map_err(|why| Failure::file(to, why))?;
    sync_folder(paths)
}

/// Removes a file if it is there, and has that last.
pub fn remove(paths: &Paths, path: &Path) -> Result<(), Failure> {
    if is_there(path)? {
        fs::remove_file(path).map_err(|why| Failure::file(path, why))?;
        sync_folder(paths)?;
    }
    Ok(())
}

/// Has the names in the disk's folder last.
pub fn sync_folder(paths: &Paths) -> Result<(), Failure> {
    let folder = paths.folder();
    File::open(folder).and_then(|folder| folder.sync_all()).map_err(|why| Failure::file(folder, why))
}

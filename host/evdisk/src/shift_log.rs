//! The shift log: one line for each removal, with the blocks that it copied and the contract's limit for it. A
//! replacement has the line of its removal.

use crate::removal::Removal;
use crate::{files, Failure};
use std::fs::{File, OpenOptions};
use std::path::Path;

/// A line of the shift log.
#[derive(Clone, Debug, PartialEq, Eq)]
pub struct Line {
    /// When the file was removed or replaced.
    pub date: String,
    /// The removal.
    pub removal: Removal,
}

impl Line {
    /// The line as it stands in the log.
    pub fn text(&self) -> String {
        let Line { date, removal: Removal { id, blocks, copied, limit } } = self;
        format!("{date} id {id} blocks {blocks} copied {copied} limit {limit}\n")
    }

    /// The line that a text is, if it is one.
    pub fn of_text(text: &str) -> Option<Line> {
        let words: Vec<&str> = text.split(' ').collect();
        let [date, "id", id, "blocks", blocks, "copied", copied, "limit", limit] = words[..] else {
            return None;
        };
        let removal = Removal {
            id: id.parse().ok()?,
            blocks: blocks.parse().ok()?,
            copied: copied.parse().ok()?,
            limit: limit.parse().ok()?,
        };
        Some(Line { date: date.to_string(), removal })
    }
}

/// The lines of a log. A log that is not there has none.
pub fn read(path: &Path) -> Result<Vec<Line>, Failure> {
    if !files::is_there(path)? {
        return Ok(Vec::new());
    }
    let bytes = files::read_at_most(&files::open(path)?, path, u64::MAX)?;
    let text = String::from_utf8_lossy(&bytes);
    let understood = |(i, line): (usize, &str)| {
        Line::of_text(line).ok_or_else(|| Failure::file(path, format!("line {} is no line of a shift log", i + 1)))
    };
    text.lines().enumerate().map(understood).collect()
}

/// Opens a log to write, and makes it if it is not there.
fn open(path: &Path) -> Result<File, Failure> {
    let log = OpenOptions::new().read(true).write(true).create(true).truncate(false).open(path);
    log.map_err(|why| Failure::file(path, why))
}

/// The length of a log that can be written; 0 if it is not there.
pub fn length(path: &Path) -> Result<u64, Failure> {
    open(path)?.metadata().map(|about| about.len()).map_err(|why| Failure::file(path, why))
}

/// Adds a line to a log that had the given length, and has it last. It may be asked again, after it was cut off: what
/// stands there of the line is completed, and nothing else is written over.
pub fn put(path: &Path, length_before: u64, line: &[u8]) -> Result<(), Failure> {
    let log = open(path)?;
    let (end, size) = (length(path)?, line.len() as u64);
    let there = files::read_from(&log, path, length_before, size)?;
    if length_before + there.len() as u64 == end && line.starts_with(&there) {
        files::write_at(&log, path, length_before, line)?;
    } else if there != line && files::read_from(&log, path, end.saturating_sub(size), size)? != line {
        files::write_at(&log, path, end, line)?;
    }
    files::sync(&log, path)
}

#[cfg(test)]
mod tests {
    use super::*;
    use std::fs;

    #[test]
    fn a_line_is_read_as_it_was_written() {
        let removal = Removal { id: 5, blocks: 3, copied: 1, limit: 2 };
        let line = Line { date: "2026-01-31T23:59:00Z".to_string(), removal };
        assert_eq!(line.text(), "2026-01-31T23:59:00Z id 5 blocks 3 copied 1 limit 2\n");
        assert_eq!(Line::of_text(line.text().trim_end()), Some(line));
        assert_eq!(Line::of_text("2026-01-31T23:59:00Z id 5 blocks 3 copied 1"), None);
        assert_eq!(Line::of_text("2026-01-31T23:59:00Z id 5 blocks x copied 1 limit 2"), None);
    }

    /// What a log that holds `there` is after `line` was put to it, when it had `before` bytes before the removal.
    fn after(name: &str, there: &str, before: u64, line: &str) -> String {
        let path = std::env::temp_dir().join(format!("evdisk-log-{}-{name}", std::process::id()));
        fs::write(&path, there).expect("a scratch file");
        for _ in 0..2 {
            put(&path, before, line.as_bytes()).expect("a scratch file");
        }
        let log = fs::read_to_string(&path).expect("a scratch file");
        fs::remove_file(&path).expect("a scratch file");
        log
    }

    #[test]
    fn a_line_is_put_once_however_often_it_is_asked() {
        assert_eq!(after("first", "", 0, "one\n"), "one\n");
        assert_eq!(after("next", "one\n", 4, "two\n"), "one\ntwo\n");
        assert_eq!(after("torn", "one\ntw", 4, "two\n"), "one\ntwo\n");
        assert_eq!(after("equal", "one\none\n", 4, "one\n"), "one\none\n");
    }

    #[test]
    fn what_others_wrote_to_a_log_is_kept() {
        assert_eq!(after("other", "one\nby hand\n", 4, "two\n"), "one\nby hand\ntwo\n");
        assert_eq!(after("shorter", "new\n", 400, "two\n"), "new\ntwo\n");
    }
}

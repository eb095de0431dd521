//! A folder for one test, the tool run in it, and disks to try it on.

use miniseed::Quality;
use std::collections::BTreeMap;
use std::fs;
use std::path::{Path, PathBuf};
use std::process::{Command, Output};
use std::sync::atomic::{AtomicU32, Ordering};

/// A folder that is removed with its value.
pub struct Scratch {
    folder: PathBuf,
}

/// What a command said, and its status.
#[derive(Debug, PartialEq, Eq)]
pub struct Said {
    pub status: i32,
    pub out: String,
    pub err: String,
}

impl Said {
    pub fn of(output: &Output) -> Said {
        let text = |bytes: &[u8]| String::from_utf8_lossy(bytes).into_owned();
        Said { status: output.status.code().unwrap_or(-1), out: text(&output.stdout), err: text(&output.stderr) }
    }
}

/// The events of case 6 in the order of adding: id and blocks.
const CASE_6: [(u16, usize); 3] = [(5, 3), (9, 1), (2, 2)];
/// Twelve events: id and blocks.
pub const TWELVE: [(u16, usize); 12] =
    [(1, 3), (2, 2), (3, 7), (4, 5), (5, 1), (6, 1), (7, 3), (8, 2), (9, 7), (10, 5), (11, 1), (12, 1)];
/// The tool.
pub const TOOL: &str = env!("CARGO_BIN_EXE_evdisk");

impl Scratch {
    /// An empty folder.
    pub fn new() -> Scratch {
        static COUNT: AtomicU32 = AtomicU32::new(0);
        let number = COUNT.fetch_add(1, Ordering::Relaxed);
        let folder = std::env::temp_dir().join(format!("evdisk-test-{}-{number}", std::process::id()));
        fs::create_dir(&folder).expect("a scratch folder");
        Scratch { folder }
    }

    /// A folder with document 01's case 6: 16 blocks with ids 5, 9 and 2 of 3, 1 and 2 blocks, and their files.
    pub fn case_6() -> Scratch {
        Scratch::disk(16, &CASE_6)
    }

    /// Case 6 with the small catalogue, and with the large one.
    pub fn cases_6() -> [Scratch; 2] {
        Scratch::disks(16, &CASE_6)
    }

    /// Twelve events on 45 blocks, of which 7 are free, with the small catalogue, and with the large one.
    pub fn twelves() -> [Scratch; 2] {
        Scratch::disks(45, &TWELVE)
    }

    /// A disk with these events and the small catalogue, and one with the large one.
    pub fn disks(blocks: usize, events: &[(u16, usize)]) -> [Scratch; 2] {
        [Scratch::disk(blocks, events), Scratch::large_disk(blocks, events)]
    }

    /// A folder with the disk `d` and events of these ids and lengths on it, each also in the file `event-ID`.
    pub fn disk(blocks: usize, events: &[(u16, usize)]) -> Scratch {
        Scratch::formatted(&format!("format d --blocks {blocks}"), events)
    }

    /// The same with the large catalogue, however few blocks there are.
    pub fn large_disk(blocks: usize, events: &[(u16, usize)]) -> Scratch {
        Scratch::formatted(&format!("format d --blocks {blocks} --large"), events)
    }

    fn formatted(format: &str, events: &[(u16, usize)]) -> Scratch {
        let scratch = Scratch::new();
        scratch.does(format);
        for (id, length) in events {
            scratch.write(&format!("event-{id}"), &miniseed::event(u64::from(*id), *length));
            scratch.does(&format!("add d {id} event-{id}"));
        }
        scratch
    }

    /// Writes an event of so many records to a file, as it comes back from review with this quality letter.
    pub fn reviewed(&self, name: &str, records: usize, quality: Quality) {
        self.write(name, &miniseed::event_of(1000 + records as u64, records, quality));
    }

    /// A copy of the folder.
    pub fn copy(&self) -> Scratch {
        let copy = Scratch::new();
        for (name, bytes) in self.files() {
            copy.write(&name, &bytes);
        }
        copy
    }

    pub fn path(&self, name: &str) -> PathBuf {
        self.folder.join(name)
    }

    pub fn write(&self, name: &str, bytes: &[u8]) {
        fs::write(self.path(name), bytes).expect("a scratch file");
    }

    /// Writes a file again with its bytes changed.
    pub fn change(&self, name: &str, change: impl FnOnce(&mut Vec<u8>)) {
        let mut bytes = self.read(name);
        change(&mut bytes);
        self.write(name, &bytes);
    }

    pub fn read(&self, name: &str) -> Vec<u8> {
        fs::read(self.path(name)).expect("a scratch file")
    }

    /// All files with their bytes.
    pub fn files(&self) -> BTreeMap<String, Vec<u8>> {
        let entries = fs::read_dir(&self.folder).expect("the scratch folder").map(|entry| entry.expect("an entry"));
        let names = entries.map(|entry| entry.file_name().into_string().expect("a plain name"));
        names.map(|name| (name.clone(), self.read(&name))).collect()
    }

    pub fn output(&self, words: &[&str]) -> Output {
        Command::new(TOOL).args(words).current_dir(&self.folder).output().expect("the tool runs")
    }

    /// Runs the tool with words parted by spaces.
    pub fn says(&self, words: &str) -> Said {
        Said::of(&self.output(&words.split_whitespace().collect::<Vec<_>>()))
    }

    /// Runs the tool, which must do it without a word of complaint, and gives what it says.
    pub fn does(&self, words: &str) -> String {
        let said = self.says(words);
        assert_eq!((said.status, said.err.as_str()), (0, ""), "evdisk {words}");
        said.out
    }

    /// Runs the tool, which must not do it and leave each file as it is; gives its status and its complaint.
    pub fn refuses(&self, words: &str) -> (i32, String) {
        let before = self.files();
        let said = self.says(words);
        assert_eq!(said.out, "", "evdisk {words}");
        assert_eq!(self.files(), before, "evdisk {words} changed a file");
        (said.status, said.err)
    }

    /// The pages of an event as the tool reads them.
    pub fn event(&self, id: u16) -> Vec<u8> {
        let output = self.output(&["read", "d", &id.to_string()]);
        assert_eq!(output.status.code(), Some(0), "evdisk read d {id}");
        output.stdout
    }
}

impl Drop for Scratch {
    fn drop(&mut self) {
        let _ = fs::remove_dir_all(Path::new(&self.folder));
    }
}

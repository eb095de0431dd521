//! Commands that are cut off after a given number of writes, as if the supply had failed there.

use crate::scratch::Scratch;
use evdisk_tool::commit;
use evdisk_tool::files;
use evdisk_tool::paths::Paths;
use evdisk_tool::store::Disk;
use evdisk_tool::Failure;
use event_disk::Refusal;

/// The line of the shift log of these removals and replacements.
pub const LINE: &str = "2026-01-31T23:59:00Z id 1 blocks 1 copied 1 limit 1\n";

/// A watcher that fails after so many writes, the names of those that were made, and the command's failure.
pub struct Cut {
    after: usize,
    pub made: Vec<String>,
    pub failure: Option<Failure>,
}

impl Cut {
    pub fn after(after: usize) -> Cut {
        Cut { after, made: Vec::new(), failure: None }
    }

    pub fn watch(&mut self, write: &str) -> Result<(), Failure> {
        self.made.push(write.to_string());
        match self.made.len() == self.after {
            true => Err(Failure::File("the supply failed".to_string())),
            false => Ok(()),
        }
    }

    /// Keeps how the command ended, which must be by being cut off if it was.
    pub fn ended(mut self, done: Result<impl Sized, Failure>) -> Cut {
        self.failure = done.err();
        assert_eq!(self.failure.is_some(), self.made.len() == self.after);
        self
    }

    pub fn made(&self, write: &str) -> bool {
        self.made.iter().any(|made| made == write)
    }
}

pub fn opened(scratch: &Scratch) -> (Paths, std::fs::File, Disk) {
    let paths = Paths::of(&scratch.path("d"));
    let image = files::open_to_write(&paths.image).expect("the image");
    let disk = Disk::whole(&paths, &image).expect("the disk");
    (paths, image, disk)
}

/// What `remove d ID` or `replace d ID FILE` does to a disk.
fn call(scratch: &Scratch, words: &str, Disk { catalogue, blocks }: &mut Disk) -> Result<u64, Refusal> {
    let id = |word: &str| word.parse().expect("an id");
    match words.split_whitespace().collect::<Vec<_>>()[..] {
        ["remove", "d", word] => event_disk::remove(catalogue, blocks, id(word)),
        ["replace", "d", word, file] => event_disk::replace(catalogue, blocks, id(word), &scratch.read(file)),
        _ => panic!("this test is about removals and replacements: {words}"),
    }
}

/// Does a removal or replacement, cut off after so many writes; says which were made.
pub fn shift(scratch: &Scratch, words: &str, after: usize) -> Cut {
    let (paths, image, mut disk) = opened(scratch);
    let before = disk.catalogue.clone();
    let copied = call(scratch, words, &mut disk).expect("the event is there");
    assert!(copied > 0, "this test is about those that copy");
    let redo = commit::written_down(&paths, &image, &before, &disk, LINE).expect("the log");
    let mut cut = Cut::after(after);
    let done = commit::shift(&paths, &image, &redo, &mut |write| cut.watch(write));
    cut.ended(done)
}

/// Completes what was cut off, cut off after so many writes; says which were made.
pub fn complete(scratch: &Scratch, after: usize) -> Cut {
    let (paths, image, _) = opened(scratch);
    let mut cut = Cut::after(after);
    let done = commit::recover(&paths, &image, &mut |write| cut.watch(write));
    cut.ended(done)
}

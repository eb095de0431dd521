//! Two commands at once, and a command that may not write.

use crate::scratch::{Said, Scratch, TOOL};
use std::fs::{self, File, Permissions};
use std::io::ErrorKind;
use std::os::unix::fs::{MetadataExt, PermissionsExt};
use std::os::unix::process::CommandExt;
use std::process::Command;
use std::thread::sleep;
use std::time::Duration;

const BUSY: &str = "evdisk: d: another evdisk is at work on this disk; try again\n";
/// The commands that change a disk, on that of case 6.
const CHANGING: [&str; 4] = ["remove d 5", "add d 7 event-5", "replace d 5 event-5", "format d --force"];
/// Some of those that only look, on the same disk.
const LOOKING: [&str; 4] = ["list d", "which d 11", "which d --file event-5", "remove d 5 --dry-run"];

#[test]
fn a_disk_that_is_being_changed_is_left_alone() {
    let scratch = Scratch::case_6();
    let image = File::open(scratch.path("d")).expect("the image");
    image.lock().expect("nobody else has it");
    for words in ["read d 5", "check d"].iter().chain(&LOOKING).chain(&CHANGING) {
        assert_eq!(scratch.refuses(words), (3, BUSY.to_string()), "evdisk {words}");
    }
    image.unlock().expect("we have it");
    assert_eq!(scratch.does("free d"), "10 blocks free\n");
}

#[test]
fn a_disk_that_is_being_looked_at_can_be_looked_at_but_not_changed() {
    let scratch = Scratch::case_6();
    let image = File::open(scratch.path("d")).expect("the image");
    image.lock_shared().expect("nobody else has it");
    assert_eq!(scratch.does("free d"), "10 blocks free\n");
    assert!(LOOKING.iter().all(|words| !scratch.does(words).is_empty()));
    for words in CHANGING {
        assert_eq!(scratch.refuses(words), (3, BUSY.to_string()), "evdisk {words}");
    }
}

/// Runs the tool as someone who may read the files of the folder but not write them.
fn as_reader(scratch: &Scratch, words: &[&str]) -> Said {
    let tool = scratch.path("evdisk");
    fs::copy(TOOL, &tool).expect("a copy of the tool");
    for name in ["d", "d.cat"] {
        fs::set_permissions(scratch.path(name), Permissions::from_mode(0o444)).expect("a file of ours");
    }
    let mut command = Command::new(tool);
    command.args(words).current_dir(scratch.path("."));
    if fs::metadata(scratch.path("d")).expect("the image").uid() == 0 {
        fs::set_permissions(scratch.path("."), Permissions::from_mode(0o755)).expect("a folder of ours");
        command.uid(65534);
    }
    run_when_written(&mut command)
}

/// Runs a program that was just written. A child that another test starts meanwhile has the file open for a moment.
fn run_when_written(command: &mut Command) -> Said {
    for _ in 0..500 {
        match command.output() {
            Err(why) if why.kind() == ErrorKind::ExecutableFileBusy => sleep(Duration::from_millis(10)),
            output => return Said::of(&output.expect("the tool runs")),
        }
    }
    panic!("the copy of the tool stays busy");
}

#[test]
fn a_reader_reads_a_disk_that_it_may_not_write() {
    let scratch = Scratch::case_6();
    assert_eq!(as_reader(&scratch, &["free", "d"]).out, "10 blocks free\n");
    for words in LOOKING {
        let said = as_reader(&scratch, &words.split(' ').collect::<Vec<_>>());
        assert_eq!((said.status, said.out), (0, scratch.does(words)), "{words}");
    }
    for words in CHANGING {
        let said = as_reader(&scratch, &words.split(' ').collect::<Vec<_>>());
        assert_eq!((said.status, said.err.as_str()), (3, "evdisk: d: Permission denied (os error 13)\n"), "{words}");
    }
}

#[test]
fn a_reader_is_told_of_what_is_to_be_completed_first() {
    let scratch = Scratch::case_6();
    scratch.write("d.redo", b"any");
    let said = as_reader(&scratch, &["list", "d"]);
    assert_eq!((said.status, said.out.as_str()), (3, ""));
    let denied = "evdisk: d: Permission denied (os error 13)";
    let pending = "a removal or replacement that was cut off is to be completed first, from d.redo";
    assert_eq!(said.err, format!("{denied}; {pending}\n"));
}

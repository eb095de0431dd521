//! Files that cannot be written, as on a full file system: a command is not done, or waits once it is decided.

use crate::scratch::{Said, Scratch, TOOL};
use miniseed::Quality;
use std::process::Command;

/// Runs the tool where no file can be written from a byte on: so many times 512.
fn limited(scratch: &Scratch, words: &str, limit: u32) -> Said {
    let script = format!("trap '' XFSZ && ulimit -f {limit} && exec \"$0\" \"$@\"");
    let mut shell = Command::new("sh");
    shell.args(["-c", &script, TOOL]).args(words.split(' ')).current_dir(scratch.path("."));
    Said::of(&shell.output().expect("the shell runs"))
}

/// A removal and a replacement are stopped so before they are decided, and nothing is changed.
fn stopped(does: impl Fn(&Scratch, &str) -> Said, why: &str) {
    for words in ["remove d 5", "replace d 5 reviewed"] {
        let scratch = Scratch::case_6();
        scratch.reviewed("reviewed", 4, Quality::Q);
        let (catalogue, image) = (scratch.read("d.cat"), scratch.read("d"));
        let said = does(&scratch, words);
        assert_eq!((said.status, said.out.as_str()), (3, ""), "evdisk {words}");
        assert!(said.err.starts_with(&format!("evdisk: {why}")), "evdisk {words}: {}", said.err);
        assert!(scratch.read("d.cat") == catalogue && scratch.read("d") == image && !scratch.path("d.redo").exists());
    }
}

#[test]
fn a_log_that_cannot_be_written_stops_a_shift_before_it_is_decided() {
    let with_folder = |scratch: &Scratch, words: &str| {
        std::fs::create_dir(scratch.path("d.log")).expect("a folder in the log's place");
        scratch.says(words)
    };
    stopped(with_folder, "d.log: Is a directory");
}

#[test]
fn a_redo_file_that_cannot_be_written_stops_a_shift_before_it_is_decided() {
    stopped(|scratch, words| limited(scratch, words, 9), "d.redo.new: File too large");
}

/// The new event goes to blocks 32 to 47, of which those from 40 on cannot be written. The redo file is shorter. An old
/// event of 16 blocks lies there too, so that the catalogue stays as it is.
#[test]
fn a_replacement_that_is_decided_waits_for_a_command_that_can_complete_it() {
    for length in [3, 16] {
        let scratch = Scratch::disk(64, &[(1, 32), (5, length)]);
        scratch.reviewed("reviewed", 16, Quality::Q);
        for words in ["replace d 5 reviewed", "list d", "add d 7 event-5"] {
            let said = limited(&scratch, words, 40);
            assert_eq!((said.status, said.out.as_str()), (3, ""), "evdisk {words}");
            assert!(said.err.starts_with("evdisk: d: File too large"), "evdisk {words}: {}", said.err);
        }
        let said = scratch.says("free d");
        assert_eq!((said.status, said.out.as_str()), (0, "16 blocks free\n"));
        assert!(said.err.starts_with("evdisk: note: d: completed a removal or replacement"), "{}", said.err);
        assert!(scratch.event(5) == scratch.read("reviewed") && scratch.event(1) == scratch.read("event-1"));
        assert!(scratch.does("list d").contains("\n    5      16       1       0  (32,16)\n"));
        assert_eq!(scratch.does("log d").lines().count(), 2);
    }
}

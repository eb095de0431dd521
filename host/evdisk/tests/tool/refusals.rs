//! What the commands say when they are not done. `refuses` also sees to it that no file is changed.

use crate::scratch::Scratch;
use std::fs::File;

fn refused(scratch: &Scratch, words: &str, number: u8, why: &str) {
    assert_eq!(scratch.refuses(words), (1, format!("evdisk: refused {number}: {why}\n")), "evdisk {words}");
}

fn complains(scratch: &Scratch, words: &str, status: i32, why: &str) {
    let (got, complaint) = scratch.refuses(words);
    assert_eq!(got, status, "evdisk {words}: {complaint}");
    assert!(complaint.starts_with("evdisk: ") && complaint.contains(why), "evdisk {words}: {complaint}");
}

const SPACE: &str = "there are fewer free blocks than the file needs; no single removal would make room";
const LENGTH: &str = "the length is 0 or no multiple of 512 bytes";
const END: &str = "the pages go past the end of the file";
const NO_DISK: &str = "the disk is not 1 to 4,096 blocks of 512 bytes long, or 1 to 1,048,576 with the large catalogue";
const NO_CATALOGUE: &str = "the catalogue is neither 4,096 nor 16,384 bytes long";
const UNSOUND: &str = "the catalogue is not sound";
const OTHER_DISK: &str = "the disk is not as long as the catalogue says";

#[test]
fn the_managers_refusals_come_with_their_numbers() {
    let scratch = Scratch::case_6();
    scratch.write("odd", &[0; 511]);
    scratch.write("empty", &[]);
    scratch.write("fourteen", &[0; 14 * 512]);
    for words in ["remove d 0", "breaks d 0", "read d 0", "add d 0 odd", "replace d 0 odd"] {
        refused(&scratch, words, 5, "0 is no id");
    }
    for words in ["remove d 6", "breaks d 6", "read d 6", "read d 65535 --pages 0", "replace d 6 odd"] {
        refused(&scratch, words, 6, "no file has this id");
    }
    refused(&scratch, "add d 5 odd", 7, "a file has this id already");
    for words in ["add d 7 odd", "add d 7 empty", "read d 5 --pages 0", "replace d 5 odd", "replace d 5 empty"] {
        refused(&scratch, words, 8, LENGTH);
    }
    refused(&scratch, "add d 7 fourteen", 11, SPACE);
}

#[test]
fn pages_past_the_end_are_refused_however_many() {
    let scratch = Scratch::case_6();
    let huge = "99999999999999999999999999";
    for words in ["--first 2 --pages 2", "--first 3", "--pages 4"] {
        refused(&scratch, &format!("read d 5 {words}"), 9, END);
    }
    refused(&scratch, &format!("read d 5 --first {huge}"), 9, END);
    refused(&scratch, &format!("read d 5 --pages {huge} --output new"), 9, END);
}

#[test]
fn a_disk_has_1_to_1048576_blocks() {
    let scratch = Scratch::new();
    for blocks in ["0", "1048577", "18446744073709551616"] {
        refused(&scratch, &format!("format d --blocks {blocks}"), 2, NO_DISK);
        refused(&scratch, &format!("format d --blocks {blocks} --large"), 2, NO_DISK);
    }
    scratch.write("odd", &[0; 700]);
    refused(&scratch, "format odd --force", 2, NO_DISK);
    complains(&scratch, "format d", 2, "a new image needs --blocks C");
    complains(&scratch, "format d --blocks 1e3", 2, "--blocks: '1e3' is no number");
}

#[test]
fn the_65th_file_is_refused() {
    let scratch = Scratch::disk(80, &(1..=64).map(|id| (id, 1)).collect::<Vec<_>>());
    refused(&scratch, "add d 65 event-1", 10, "there are 64 files already");
}

#[test]
fn a_file_larger_than_the_disk_is_refused_by_its_length() {
    let scratch = Scratch::case_6();
    let sparse = |name: &str, length: u64| {
        let file = File::create(scratch.path(name)).expect("a scratch file");
        file.set_len(length).expect("a file with a hole");
    };
    sparse("big", 1 << 20);
    sparse("bigger", (1 << 20) + 1);
    refused(&scratch, "add d 7 big", 11, SPACE);
    refused(&scratch, "add d 7 bigger", 8, LENGTH);
    refused(&scratch, "add d 7 /dev/zero", 11, SPACE);
    sparse("huge", 1 << 40);
    let said = scratch.says("add d 7 huge");
    assert_eq!((said.status, said.err), (1, format!("evdisk: refused 11: {SPACE}\n")));
    std::fs::remove_file(scratch.path("huge")).expect("a scratch file");
    assert_eq!(scratch.does("free d"), "10 blocks free\n");
}

#[test]
fn ids_and_numbers_that_are_none_are_wrong_usage() {
    let scratch = Scratch::case_6();
    for id in ["65536", "-1", "abc", "5x", "+5", "0x5", "4294967301", "5.0"] {
        for words in ["remove d ID", "read d ID", "add d ID event-5", "replace d ID event-5"] {
            let words = words.replace("ID", id);
            complains(&scratch, &words, 2, &format!("'{id}' is no id: an id is a number from 1 to 65535"));
        }
    }
    complains(&scratch, "read d 5 --first x", 2, "--first: 'x' is no number");
    complains(&scratch, "map d --width 0", 2, "--width: '0' is not 1 to 4096");
}

#[test]
fn wrong_command_lines_are_told_how_they_should_be() {
    let scratch = Scratch::case_6();
    complains(&scratch, "", 2, "which command?");
    complains(&scratch, "erase d", 2, "there is no command 'erase'");
    complains(&scratch, "remove d", 2, "ID is missing\nusage: evdisk remove IMAGE ID [--dry-run] [--json]\n");
    complains(&scratch, "replace d 5", 2, "FILE is missing\nusage: evdisk replace IMAGE ID FILE [--json]\n");
    complains(&scratch, "remove d 5 9", 2, "'9' is too much");
    complains(&scratch, "remove d 5 --quick", 2, "--quick is no option of this command");
    complains(&scratch, "read d 5 --first 1 --first 2", 2, "--first stands twice");
    complains(&scratch, "read d 5 --first", 2, "--first needs a value");
    complains(&scratch, "list d --json=yes", 2, "--json takes no value");
}

#[test]
fn files_that_are_not_there_or_not_right_are_named() {
    let scratch = Scratch::case_6();
    complains(&scratch, "list none", 3, "none: No such file or directory");
    complains(&scratch, "add d 7 none", 3, "none: No such file or directory");
    complains(&scratch, "add d 7 .", 3, ".: Is a directory");
    complains(&scratch, "replace d 5 none", 3, "none: No such file or directory");
    complains(&scratch, "list event-5", 3, "event-5.cat: No such file or directory");
    complains(&scratch, "read d 5 --output event-9", 3, "event-9: File exists");
    complains(&scratch, "read d 5 --output d", 3, "d: File exists");
    complains(&scratch, "map d --svg d.cat", 3, "d.cat: File exists");
    complains(&scratch, "format d --blocks 16", 3, "d: is there already; --force formats it");
    complains(&scratch, "format d --blocks 8 --force", 2, "the image has 16 blocks: leave --blocks out");
}

/// Commands that look at catalogue and image, and others that look at the catalogue alone.
const BY_BOTH: [&str; 6] =
    ["add d 7 event-5", "remove d 5", "remove d 5 --dry-run", "replace d 5 event-5", "read d 5", "check d"];
const BY_CATALOGUE: [&str; 5] = ["list d", "breaks d 5", "free d", "which d 11", "map d"];

#[test]
fn a_damaged_disk_is_refused_by_every_command() {
    for scratch in Scratch::cases_6() {
        let damaged = |name: &str, change: &dyn Fn(&mut Vec<u8>)| {
            let scratch = scratch.copy();
            scratch.change(name, |bytes| change(bytes));
            scratch
        };
        let unsound = damaged("d.cat", &|bytes| *bytes.last_mut().expect("it has bytes") = 1);
        let short = damaged("d.cat", &|bytes| bytes.truncate(bytes.len() - 1));
        let long = damaged("d.cat", &|bytes| bytes.push(0));
        for words in BY_BOTH.iter().chain(&BY_CATALOGUE) {
            refused(&unsound, words, 3, UNSOUND);
            refused(&short, words, 1, NO_CATALOGUE);
            refused(&long, words, 1, NO_CATALOGUE);
        }
        let cut = damaged("d", &|bytes| bytes.truncate(8191));
        let grown = damaged("d", &|bytes| bytes.resize(3 << 20, 0));
        for words in BY_BOTH {
            refused(&cut, words, 4, OTHER_DISK);
            refused(&grown, words, 4, OTHER_DISK);
        }
    }
}

#[test]
fn a_version_in_a_catalogue_of_the_other_length_is_refused() {
    let [small, large] = Scratch::cases_6();
    small.change("d.cat", |bytes| bytes.resize(16_384, 0));
    large.change("d.cat", |bytes| bytes.truncate(4096));
    let between = large.copy();
    between.change("d.cat", |bytes| bytes.resize(8192, 0));
    for words in BY_BOTH.iter().chain(&BY_CATALOGUE) {
        refused(&small, words, 3, UNSOUND);
        refused(&large, words, 3, UNSOUND);
        refused(&between, words, 1, NO_CATALOGUE);
    }
}

#[test]
fn a_catalogue_of_another_disk_is_refused_where_the_image_counts() {
    let (small, large) = (Scratch::case_6(), Scratch::disk(4200, &[(5, 3)]));
    let (first, second) = (small.read("d.cat"), large.read("d.cat"));
    small.write("d.cat", &second);
    large.write("d.cat", &first);
    for words in BY_BOTH {
        refused(&small, words, 4, OTHER_DISK);
        refused(&large, words, 4, OTHER_DISK);
    }
    assert_eq!((small.does("free d"), large.does("free d")), ("4197 blocks free\n".into(), "10 blocks free\n".into()));
}

#[test]
fn a_log_that_is_none_is_named_with_its_line() {
    let scratch = Scratch::case_6();
    scratch.does("remove d 5");
    let mut log = scratch.read("d.log");
    log.extend_from_slice(b"by hand\n");
    scratch.write("d.log", &log);
    complains(&scratch, "log d", 3, "d.log: line 2 is no line of a shift log");
}

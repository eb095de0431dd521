//! Which removals would make room for an event: what `evdisk which` says, and what an add that finds no space does.

use crate::scratch::{Said, Scratch, TOOL};
use std::io::Write;
use std::process::{Command, Stdio};

const NAMES: &str = "   id  blocks  copies   limit\n";
const SPACE: &str = "evdisk: refused 11: there are fewer free blocks than the file needs";
const LENGTH: &str = "evdisk: refused 8: the length is 0 or no multiple of 512 bytes\n";

/// Writes an event of so many records to a file.
fn event(scratch: &Scratch, name: &str, records: usize) {
    scratch.write(name, &miniseed::event(records as u64, records));
}

/// The second worked case: 16 blocks, of which 2 are free.
fn equal_counts() -> [Scratch; 2] {
    Scratch::disks(16, &[(1, 3), (2, 3), (3, 3), (4, 3), (6, 2)])
}

#[test]
fn the_removals_of_case_6_stand_by_their_copies() {
    for scratch in Scratch::cases_6() {
        let files = scratch.files();
        let any = "any one of these removals would make room for";
        let (two, nine, five) =
            ("    2       2       0       2\n", "    9       1       0       0\n", "    5       3       1       2\n");
        assert_eq!(scratch.does("which d 1"), "an event of 1 block fits already (10 free)\n");
        assert_eq!(scratch.does("which d 10"), "an event of 10 blocks fits already (10 free)\n");
        assert_eq!(scratch.does("which d 11"), format!("{NAMES}{two}{nine}{five}{any} 11 blocks (10 free)\n"));
        assert_eq!(scratch.does("which d 12"), format!("{NAMES}{two}{five}{any} 12 blocks (10 free)\n"));
        let this = "this removal would make room for";
        assert_eq!(scratch.does("which d 13"), format!("{NAMES}{five}{this} 13 blocks (10 free)\n"));
        let none = "no single removal would make room for";
        assert_eq!(scratch.does("which d 14"), format!("{none} 14 blocks (10 free)\n"));
        for huge in ["18446744073709551615", "99999999999999999999999999"] {
            let most = format!("{none} 18446744073709551615 blocks (10 free)\n");
            assert_eq!(scratch.does(&format!("which d {huge}")), most);
        }
        assert!(scratch.files() == files, "a file was changed");
    }
}

/// The ids of a table, in its order.
fn ids(table: &str) -> Vec<u16> {
    let rows = table.lines().filter(|line| line.starts_with(' ')).skip(1);
    rows.map(|row| row.split_whitespace().next().and_then(|word| word.parse().ok()).expect("an id")).collect()
}

#[test]
fn equal_counts_stand_by_lower_id() {
    for scratch in equal_counts() {
        let table = scratch.does("which d 3");
        assert_eq!(ids(&table), [6, 1, 4, 2, 3], "{table}");
        let rows = "    6       2       0       2\n    1       3       1       2\n    4       3       1       2\n";
        assert!(table.starts_with(&format!("{NAMES}{rows}    2       3       2       2\n")), "{table}");
        assert_eq!(ids(&scratch.does("which d 5")), [1, 4, 2, 3]);
        assert_eq!(scratch.does("which d 6"), "no single removal would make room for 6 blocks (2 free)\n");
    }
}

/// Removes each event, as the tables for more and more blocks said beforehand: then as many fit as those that have it.
#[test]
fn a_removal_does_what_the_table_says() {
    for scratch in equal_counts().into_iter().chain(Scratch::twelves()) {
        let tables: Vec<(usize, String)> = (1..=16).map(|n| (n, scratch.does(&format!("which d {n}")))).collect();
        for id in (1..=12).filter(|id| scratch.path(&format!("event-{id}")).exists()) {
            let copy = scratch.copy();
            let removed = copy.does(&format!("remove d {id} --json"));
            let number = |name: &str| {
                let (_, rest) = removed.split_once(&format!("\"{name}\":")).expect("a name");
                rest.split([',', '}']).next().expect("a number").to_string()
            };
            let [blocks, copied, limit] = ["blocks", "copied", "limit"].map(number);
            let row = format!("\n{id:>5}  {blocks:>6}  {copied:>6}  {limit:>6}\n");
            for (n, table) in &tables {
                let fits = copy.does(&format!("which d {n}")).contains("fits already");
                assert_eq!(table.contains(&row) || table.contains("fits already"), fits, "{id} for {n}: {table}");
                assert_eq!(ids(table).contains(&id), table.contains(&row), "{id} for {n}: {table}");
            }
        }
    }
}

#[test]
fn an_add_without_space_names_the_first_removal_that_makes_room() {
    let mut named = 0;
    for scratch in Scratch::cases_6().into_iter().chain(equal_counts()).chain(Scratch::twelves()) {
        for records in (1..20).filter(|records| !scratch.does(&format!("which d {records}")).contains("already")) {
            event(&scratch, "new", records);
            let (status, complaint) = scratch.refuses("add d 99 new");
            let Some(first) = ids(&scratch.does(&format!("which d {records}"))).first().copied() else {
                assert_eq!((status, complaint), (1, format!("{SPACE}; no single removal would make room\n")));
                continue;
            };
            let copy = scratch.copy();
            let removed = copy.does(&format!("remove d {first}"));
            let (_, copied) = removed.trim_end().split_once(": ").expect("what was copied");
            let (copied, _) = copied.split_once(" (").expect("and the limit");
            assert_eq!((status, complaint), (1, format!("{SPACE}; removing {first} would make room ({copied})\n")));
            copy.does("add d 99 new");
            assert!(copy.event(99) == scratch.read("new"));
            named += 1;
        }
    }
    assert!(named > 20, "only {named} adds were helped");
}

/// Runs the tool with bytes that come through a pipe, whose length is not known beforehand.
fn piped(scratch: &Scratch, words: &str, bytes: &[u8]) -> Said {
    let mut tool = Command::new(TOOL);
    tool.args(words.split(' ')).current_dir(scratch.path(".")).stdin(Stdio::piped());
    let mut child = tool.stdout(Stdio::piped()).stderr(Stdio::piped()).spawn().expect("the tool runs");
    // A pipe holds more than these tests write, so that it does not matter how much of it is read.
    child.stdin.take().expect("a pipe").write_all(bytes).expect("room in the pipe");
    Said::of(&child.wait_with_output().expect("the tool ends"))
}

#[test]
fn a_file_is_asked_for_by_its_length() {
    let scratch = Scratch::case_6();
    for records in [1, 10, 11, 12, 13, 14, 16] {
        event(&scratch, "new", records);
        let asked = scratch.does(&format!("which d {records}"));
        assert_eq!(scratch.does("which d --file new"), asked);
        assert_eq!(scratch.does("which --file=new d"), asked);
        let said = piped(&scratch, "which d --file /dev/stdin", &scratch.read("new"));
        assert_eq!((said.status, said.out, said.err), (0, asked, String::new()));
    }
    assert_eq!(scratch.does("which d --file /dev/zero"), scratch.does("which d 17"), "as many as no disk of 16 has");
    for length in [0, 1, 511, 513, 14 * 512 + 1] {
        scratch.write("odd", &vec![0; length]);
        assert_eq!(scratch.refuses("which d --file odd"), (1, LENGTH.to_string()), "{length} bytes");
        let said = piped(&scratch, "which d --file /dev/stdin", &vec![0; length]);
        assert_eq!((said.status, said.err.as_str()), (1, LENGTH), "{length} bytes");
    }
    assert_eq!(scratch.refuses("which d 0"), (1, LENGTH.to_string()));
}

#[test]
fn an_add_from_a_pipe_is_helped_too() {
    let scratch = Scratch::case_6();
    let helped =
        [(11, "removing 2 would make room (0 blocks copied)"), (13, "removing 5 would make room (1 block copied)")];
    for (records, words) in helped.into_iter().chain([(14, "no single removal would make room")]) {
        let said = piped(&scratch, "add d 7 /dev/stdin", &miniseed::event(7, records));
        assert_eq!((said.status, said.err), (1, format!("{SPACE}; {words}\n")));
    }
    let said = piped(&scratch, "add d 7 /dev/stdin", &vec![0; 12 * 512 + 1]);
    assert_eq!((said.status, said.err), (1, format!("{SPACE}\n")), "no removal would let this one in");
    assert_eq!(scratch.does("free d"), "10 blocks free\n");
}

#[test]
fn at_64_events_only_blocks_are_counted() {
    let scratch = Scratch::disk(70, &(1..=64).map(|id| (id, 1)).collect::<Vec<_>>());
    event(&scratch, "seven", 7);
    assert_eq!(scratch.does("which d 6"), "an event of 6 blocks fits already (6 free)\n");
    let mut listed = ids(&scratch.does("which d --file seven"));
    listed.sort_unstable();
    assert_eq!(listed, (1..=64).collect::<Vec<u16>>());
    let full = "evdisk: refused 10: there are 64 files already\n";
    assert_eq!(scratch.refuses("add d 65 seven"), (1, full.to_string()));
}

#[test]
fn a_number_or_a_file_has_to_stand_and_not_both() {
    let scratch = Scratch::case_6();
    let usage = "usage: evdisk which IMAGE (N | --file FILE) [--json]\n";
    for (words, why) in [
        ("which", "IMAGE is missing\n"),
        ("which d", "N is missing\n"),
        ("which --file event-5", "IMAGE is missing\n"),
        ("which d 3 --file event-5", "'3' is too much\n"),
        ("which d 3 4", "'4' is too much\n"),
        ("which d --file", "--file needs a value\n"),
    ] {
        assert_eq!(scratch.refuses(words), (2, format!("evdisk: {why}{usage}")), "evdisk {words}");
    }
    for number in ["x", "-1", "1e3", "0x10", "+1", "1.0"] {
        let why = format!("evdisk: N: '{number}' is no number\n");
        assert_eq!(scratch.refuses(&format!("which d {number}")), (2, why));
    }
    for (words, why) in [("none", "none: No such file or directory"), (".", ".: Is a directory")] {
        let (status, complaint) = scratch.refuses(&format!("which d --file {words}"));
        assert!(status == 3 && complaint.starts_with(&format!("evdisk: {why}")), "{complaint}");
    }
}

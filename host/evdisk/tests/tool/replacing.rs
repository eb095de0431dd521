//! Reviewed events in the place of raw ones: what `evdisk replace` does and says, and when it does not.

use crate::scratch::{Scratch, TWELVE};
use event_disk::Refusal;
use miniseed::Quality;
use std::fs::File;
use std::io::Write;

fn refused(scratch: &Scratch, words: &str, refusal: Refusal) {
    let complaint = format!("evdisk: refused {}: {refusal}\n", refusal.number());
    assert_eq!(scratch.refuses(words), (1, complaint), "evdisk {words}");
}

#[test]
fn a_reviewed_event_takes_the_place_of_the_raw_one() {
    for scratch in Scratch::cases_6() {
        scratch.reviewed("reviewed", 4, Quality::Q);
        let said = "replaced 5: 1 block copied (contract limit 2); 4 blocks in 1 piece, 0 breaks: (0,4)\n";
        assert_eq!(scratch.does("replace d 5 reviewed"), said);
        let list = "   id  blocks  pieces  breaks  places (first block,lengths)
    2       2       1       0  (4,2)
    5       4       1       0  (0,4)
    9       1       1       0  (7,1)
 free       9       2          (6,1) (8,8)
16 blocks, ";
        assert!(scratch.does("list d").starts_with(list), "{}", scratch.does("list d"));
        for (id, file) in [(5, "reviewed"), (2, "event-2"), (9, "event-9")] {
            assert!(scratch.event(id) == scratch.read(file), "event {id}");
        }
        let log = scratch.does("log d");
        assert!(log.ends_with("Z      5       3       1       2\n") && log.lines().count() == 2, "{log}");
    }
}

/// What is left of a log's lines without their dates.
fn undated(scratch: &Scratch) -> Vec<String> {
    let log = String::from_utf8(scratch.read("d.log")).expect("text");
    log.lines().map(|line| line.split_once(' ').expect("a date and the rest").1.to_string()).collect()
}

#[test]
fn a_replacement_is_a_removal_and_an_add() {
    let mut copies = 0;
    for old in Scratch::twelves() {
        for (id, length) in TWELVE {
            for records in [1, 2, 5, 7 + length] {
                old.reviewed("new", records, Quality::M);
                let (two, one) = (old.copy(), old.copy());
                let (removed, added) = (two.does(&format!("remove d {id}")), two.does(&format!("add d {id} new")));
                let removed = removed.trim_end().replacen("removed", "replaced", 1);
                let (_, added) = added.split_once(": ").expect("what was added");
                assert_eq!(one.does(&format!("replace d {id} new")), format!("{removed}; {added}"));
                assert!(one.read("d") == two.read("d") && one.read("d.cat") == two.read("d.cat"), "{id}, {records}");
                assert_eq!(undated(&one), undated(&two));
                copies += usize::from(!removed.contains(": 0 blocks copied"));
            }
        }
    }
    assert!(copies > 20, "only {copies} of the replacements copied blocks");
}

/// A record with this quality letter.
fn lettered(letter: u8) -> Vec<u8> {
    let mut record = miniseed::event(1, 1);
    record[6] = letter;
    record
}

#[test]
fn the_letters_rank_r_d_q_m_and_any_other_below_them() {
    let rank = |letter: u8| b"RDQM".iter().position(|known| *known == letter);
    for stored in *b"RDQMXr\0\xff" {
        let disk = Scratch::new();
        disk.write("old", &lettered(stored));
        disk.does("format d --blocks 2");
        disk.does("add d 5 old");
        for new in *b"RDQMSdm \0\xff" {
            let scratch = disk.copy();
            scratch.write("new", &lettered(new));
            match (rank(stored), rank(new)) {
                (_, None) => refused(&scratch, "replace d 5 new", Refusal::LetterUnknown),
                (old, new) if new <= old => refused(&scratch, "replace d 5 new", Refusal::LetterNotAbove),
                _ => {
                    scratch.does("replace d 5 new");
                    assert!(scratch.event(5) == scratch.read("new"), "{stored} {new}");
                }
            }
        }
    }
}

/// The stored event has pages 0 and 1 at blocks 4 and 5, and page 2 at block 0.
#[test]
fn the_letters_of_the_first_pages_count() {
    let pages = |letters: &[u8]| letters.iter().flat_map(|letter| lettered(*letter)).collect::<Vec<u8>>();
    let scratch = Scratch::new();
    scratch.write("old", &pages(b"QRR"));
    scratch.does("format d --blocks 6");
    assert_eq!(scratch.does("add d 5 old"), "added 5: 3 blocks in 2 pieces, 1 break: (4,2) (0,1)\n");
    scratch.write("lower", &pages(b"DMM"));
    scratch.write("equal", &pages(b"QMM"));
    scratch.write("unknown", &pages(b"XMM"));
    scratch.write("above", &pages(b"MXR"));
    refused(&scratch, "replace d 5 lower", Refusal::LetterNotAbove);
    refused(&scratch, "replace d 5 equal", Refusal::LetterNotAbove);
    refused(&scratch, "replace d 5 unknown", Refusal::LetterUnknown);
    scratch.does("replace d 5 above");
    assert!(scratch.event(5) == scratch.read("above"));
    refused(&scratch, "replace d 5 above", Refusal::LetterNotAbove);
}

/// Of case 6, where 10 blocks are free and event 5, with the letter D, has 3.
#[test]
fn the_first_refusal_that_applies_is_given() {
    for scratch in Scratch::cases_6() {
        let spoiled = |name: &str, length: usize, letter: u8| {
            let mut bytes = miniseed::event(1, 20);
            bytes[6] = letter;
            scratch.write(name, &bytes[..length]);
        };
        for (name, length) in [("empty", 0), ("six", 6), ("seven", 7), ("odd", 511), ("long-odd", 14 * 512 + 1)] {
            spoiled(name, length, b'X');
            refused(&scratch, &format!("replace d 0 {name}"), Refusal::IdZero);
            refused(&scratch, &format!("replace d 6 {name}"), Refusal::IdMissing);
            refused(&scratch, &format!("replace d 5 {name}"), Refusal::BufferLength);
        }
        for (letter, refusal) in [
            (b'X', Refusal::LetterUnknown),
            (b'R', Refusal::LetterNotAbove),
            (b'D', Refusal::LetterNotAbove),
            (b'Q', Refusal::NoSpace),
        ] {
            spoiled("long", 14 * 512, letter);
            refused(&scratch, "replace d 5 long", refusal);
        }
        scratch.reviewed("fits", 13, Quality::Q);
        let lying = "; 13 blocks in 3 pieces, 2 breaks: (8,8) (0,4) (6,1)\n";
        assert!(scratch.does("replace d 5 fits").ends_with(lying));
        assert_eq!(scratch.does("free d"), "0 blocks free\n");
    }
}

/// Files that would take long to read whole: a record and then a hole.
#[test]
fn a_file_larger_than_the_disk_is_refused_by_its_first_record_and_its_length() {
    let scratch = Scratch::case_6();
    let sparse = |name: &str, letter: u8, length: u64| {
        let mut file = File::create(scratch.path(name)).expect("a scratch file");
        file.write_all(&lettered(letter)).and_then(|()| file.set_len(length)).expect("a file with a hole");
    };
    for (letter, length, refusal) in [
        (b'Q', 1 << 40, Refusal::NoSpace),
        (b'D', 1 << 40, Refusal::LetterNotAbove),
        (b'X', 1 << 40, Refusal::LetterUnknown),
        (b'X', (1 << 40) + 1, Refusal::BufferLength),
    ] {
        sparse("huge", letter, length);
        let said = scratch.says("replace d 5 huge");
        assert_eq!((said.status, said.err), (1, format!("evdisk: refused {}: {refusal}\n", refusal.number())));
    }
    std::fs::remove_file(scratch.path("huge")).expect("a scratch file");
    refused(&scratch, "replace d 5 /dev/zero", Refusal::LetterUnknown);
    assert!(scratch.event(5) == scratch.read("event-5"));
}

#[test]
fn one_of_64_events_is_replaced() {
    let scratch = Scratch::disk(80, &(1..=64).map(|id| (id, 1)).collect::<Vec<_>>());
    scratch.reviewed("reviewed", 17, Quality::M);
    let said = "replaced 64: 0 blocks copied (contract limit 0); 17 blocks in 2 pieces, 1 break: (48,16) (47,1)\n";
    assert_eq!(scratch.does("replace d 64 reviewed"), said);
    assert!(scratch.does("list d").ends_with("80 blocks, 64 files\n"));
    assert!((1..=63).all(|id| scratch.event(id) == scratch.read(&format!("event-{id}"))));
    assert!(scratch.event(64) == scratch.read("reviewed"));
}

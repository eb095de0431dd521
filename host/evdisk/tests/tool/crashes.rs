//! A command that is cut off after any of its writes: the next command finds the old state or the new one, whole.

use crate::cut::{complete, opened, shift, Cut, LINE};
use crate::scratch::Scratch;
use evdisk_tool::commit;
use evdisk_tool::redo::Redo;
use miniseed::Quality;
use std::collections::BTreeMap;

/// Disks with either catalogue, and for each a removal and then a replacement of the same event that copy blocks. The
/// new events are longer, shorter or as long as the old ones, and two fill their disk.
fn shifts() -> Vec<(Scratch, String)> {
    let many: Vec<(u16, usize)> = (1..=12).map(|id| (id, [1, 3, 2, 7, 5, 1][usize::from(id) % 6])).collect();
    let [small, large] = Scratch::cases_6();
    let disks = [
        (small, 5, 4),
        (Scratch::disk(45, &many), 2, 9),
        (Scratch::disk(64, &many), 1, 1),
        (large, 5, 13),
        (Scratch::large_disk(45, &many), 2, 2),
        (Scratch::disk(4100, &many), 1, 20),
    ];
    let both = disks.into_iter().flat_map(|(scratch, id, records)| {
        scratch.reviewed("reviewed", records, Quality::Q);
        [(scratch.copy(), format!("remove d {id}")), (scratch, format!("replace d {id} reviewed"))]
    });
    both.collect()
}

/// The events that the tool reads, with their pages.
fn events(scratch: &Scratch) -> BTreeMap<u16, Vec<u8>> {
    let listing = event_disk::list(&scratch.read("d.cat")).expect("a sound catalogue");
    listing.files.iter().map(|file| (file.id, scratch.event(file.id))).collect()
}

/// The state is the one before: catalogue, events and log.
fn is_old(scratch: &Scratch, old: &Scratch, when: &str) {
    assert_eq!(scratch.says("check d").err, "", "{when}");
    assert!(scratch.read("d.cat") == old.read("d.cat"), "{when}: another catalogue");
    assert!(events(scratch) == events(old), "{when}: other pages");
    assert_eq!(scratch.does("log d --json"), "[]\n", "{when}");
}

/// The state is the one after, in each byte of image and catalogue, and the log has its line once.
fn is_new(scratch: &Scratch, new: &Scratch, when: &str) {
    assert_eq!(scratch.says("check d").status, 0, "{when}");
    assert!(scratch.read("d.cat") == new.read("d.cat"), "{when}: another catalogue");
    assert!(scratch.read("d") == new.read("d"), "{when}: another image");
    assert!(events(scratch) == events(new), "{when}: other pages");
    assert_eq!(String::from_utf8(scratch.read("d.log")).as_deref(), Ok(LINE), "{when}");
    for left in ["d.redo", "d.redo.new", "d.cat.new"] {
        assert!(!scratch.path(left).exists(), "{when}: {left} is left");
    }
}

/// The disk after a removal or replacement that nothing cuts off.
fn uncut(old: &Scratch, words: &str) -> Scratch {
    let new = old.copy();
    new.does(words);
    new
}

#[test]
fn a_shift_cut_off_after_any_write_is_found_undone_or_done() {
    for (old, words) in shifts() {
        let new = uncut(&old, &words);
        let writes = shift(&old.copy(), &words, usize::MAX).made.len();
        assert!(writes > 6, "only {writes} writes");
        for after in 1..=writes {
            let scratch = old.copy();
            let cut = shift(&scratch, &words, after);
            let when = format!("{words}, after {after} writes of {writes}");
            match cut.made("redo file named") {
                false => is_old(&scratch, &old, &when),
                true => is_new(&scratch, &new, &when),
            }
        }
    }
}

#[test]
fn the_blocks_that_are_copied_to_or_get_new_pages_are_written_and_no_others() {
    for old in Scratch::cases_6() {
        old.reviewed("reviewed", 4, Quality::Q);
        // Block 6 is free and keeps its bytes. Of the new pages the last goes to block 3, which was copied to block 7.
        for (words, blocks) in [("remove d 5", &[7][..]), ("replace d 5 reviewed", &[0, 1, 2, 3, 7])] {
            let (scratch, before) = (old.copy(), old.read("d"));
            let made = shift(&scratch, words, usize::MAX).made;
            assert_eq!(made.iter().filter(|write| *write == "block written").count(), blocks.len());
            let after = scratch.read("d");
            let changed = |block: &usize| before[block * 512..][..512] != after[block * 512..][..512];
            assert_eq!(Vec::from_iter((0..16).filter(changed)), blocks, "{words}");
        }
    }
}

#[test]
fn a_shift_cut_off_again_while_it_is_completed_is_done() {
    let some = shifts().into_iter().enumerate().filter(|(place, _)| [2, 3, 8, 9].contains(place));
    for (_, (old, words)) in some {
        let new = uncut(&old, &words);
        let cut_off = |after| {
            let scratch = old.copy();
            shift(&scratch, &words, after);
            scratch
        };
        for first in [2, 4, shift(&old.copy(), &words, usize::MAX).made.len() - 2] {
            let writes = complete(&cut_off(first), usize::MAX).made.len();
            for second in 1..=writes {
                let scratch = cut_off(first);
                complete(&scratch, second);
                complete(&scratch, second / 2 + 1);
                is_new(&scratch, &new, &format!("{words}, after {first} and then {second} writes"));
            }
        }
    }
}

#[test]
fn blocks_a_catalogue_and_a_log_line_half_written_are_written_again() {
    for (old, words) in shifts() {
        let new = uncut(&old, &words);
        let scratch = old.copy();
        shift(&scratch, &words, 2);
        let bytes = scratch.read("d.redo");
        let redo = Redo::of_bytes(&bytes).expect("a whole redo file");
        let mut image = scratch.read("d");
        for (block, _) in &redo.changed {
            let at = *block as usize * 512;
            image[at..at + 200].fill(0xEE);
        }
        scratch.write("d", &image);
        scratch.write("d.cat.new", &redo.catalogue[..100]);
        scratch.write("d.log", &LINE.as_bytes()[..20]);
        is_new(&scratch, &new, &format!("{words}, half written"));
    }
}

#[test]
fn a_redo_file_half_written_is_cleared_away() {
    for (old, words) in shifts().into_iter().take(2) {
        let scratch = old.copy();
        shift(&scratch, &words, 1);
        let redo = scratch.read("d.redo.new");
        for length in [0, 1, 100, redo.len() - 1, redo.len()] {
            scratch.write("d.redo.new", &redo[..length]);
            is_old(&scratch, &old, &format!("{words}, cut at {length} of {}", redo.len()));
            scratch.says("remove d 60000");
            assert!(!scratch.path("d.redo.new").exists());
        }
        assert!(scratch.does(&words).contains("d 5: 1 block copied (contract limit 2)"));
    }
}

/// Adds event 7 of 9 blocks, cut off after so many writes; says which were made.
fn add(scratch: &Scratch, content: &[u8], after: usize) -> Cut {
    let (paths, image, mut disk) = opened(scratch);
    event_disk::add(&mut disk.catalogue, &mut disk.blocks, 7, content).expect("there is space");
    let listing = event_disk::list(&disk.catalogue).expect("a sound catalogue");
    let added = listing.files.iter().find(|file| file.id == 7).expect("it was added");
    let mut cut = Cut::after(after);
    let pages = disk.blocks_of(&added.pieces);
    let done = commit::add(&paths, &image, &pages, &disk.catalogue, &mut |write| cut.watch(write));
    cut.ended(done)
}

#[test]
fn an_add_cut_off_after_any_write_is_found_undone_or_done() {
    let content = miniseed::event(7, 9);
    for old in Scratch::cases_6() {
        let writes = add(&old.copy(), &content, usize::MAX).made.len();
        assert_eq!(writes, 9 + 2, "nine blocks and the catalogue's two steps");
        for after in 1..=writes {
            let scratch = old.copy();
            if add(&scratch, &content, after).made("catalogue named") {
                assert!(scratch.does("check d").starts_with("sound: 16 blocks"));
            } else {
                is_old(&scratch, &old, &format!("after {after} writes"));
                scratch.write("e", &content);
                scratch.does("add d 7 e");
            }
            assert!(scratch.event(7) == content, "after {after} writes");
            let others: Vec<_> = events(&scratch).into_iter().filter(|(id, _)| *id != 7).collect();
            assert_eq!(others, events(&old).into_iter().collect::<Vec<_>>());
        }
    }
}

#[test]
fn the_next_command_tells_what_it_completed() {
    for ((scratch, words), free) in shifts().into_iter().zip(["13 blocks free\n", "9 blocks free\n"]) {
        shift(&scratch, &words, 3);
        let said = scratch.says("free d");
        assert_eq!((said.status, said.out.as_str()), (0, free));
        assert_eq!(said.err, "evdisk: note: d: completed a removal or replacement that had been cut off\n");
        assert_eq!(scratch.does("free d"), free);
    }
}

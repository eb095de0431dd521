//! A redo file that is damaged or belongs to another disk is never carried out, and nothing is lost by it.

use crate::cut::{shift, Cut, LINE};
use crate::scratch::Scratch;
use evdisk_tool::checksum::checksum;

/// Case 6 with the removal of id 5 decided, and nothing of it done.
fn decided() -> Scratch {
    decided_on(Scratch::case_6())
}

/// The same on a disk of case 6 that is there.
fn decided_on(scratch: Scratch) -> Scratch {
    let Cut { made, failure, .. } = shift(&scratch, "remove d 5", 2);
    assert_eq!(made, ["redo file written", "redo file named"]);
    let told = "the supply failed; the change is decided, and the next command completes it";
    assert_eq!(failure.expect("it was cut off").to_string(), told);
    scratch
}

fn complains(scratch: &Scratch, why: &str) {
    let looking = ["list d", "read d 9", "which d 3", "remove d 9 --dry-run"];
    let changing = ["add d 7 event-2", "remove d 9", "replace d 9 event-2", "format d --force"];
    for words in looking.into_iter().chain(changing) {
        let (status, complaint) = scratch.refuses(words);
        assert_eq!(status, 3, "evdisk {words}");
        assert!(complaint.starts_with("evdisk: d.redo: "), "evdisk {words}: {complaint}");
        assert!(complaint.contains(why), "evdisk {words}: {complaint}");
    }
}

const DAMAGED: &str = "this redo file is damaged; nothing was changed (see evdisk(1), RECOVERY)";

#[test]
fn a_damaged_redo_file_is_refused() {
    for scratch in Scratch::cases_6().map(decided_on) {
        scratch.change("d.redo", |redo| {
            let middle = redo.len() / 2;
            redo[middle] ^= 1;
        });
        complains(&scratch, DAMAGED);
    }
}

/// Makes a redo file one of an older tool, which knew the small catalogue alone: another mark, and no length before the
/// catalogue. The checksum is right.
fn as_the_older_tool(redo: &mut Vec<u8>) {
    let mut old = [b"EVDISKR1", &redo[8..24], &redo[32..redo.len() - 8]].concat();
    old.extend_from_slice(&checksum(&old).to_be_bytes());
    *redo = old;
}

#[test]
fn a_redo_file_of_an_older_tool_is_carried_out_with_the_small_catalogue_alone() {
    let [small, large] = Scratch::cases_6();
    let uncut = small.copy();
    uncut.does("remove d 5");
    let [small, large] = [small, large].map(decided_on);
    for scratch in [&small, &large] {
        scratch.change("d.redo", as_the_older_tool);
    }
    assert_eq!(small.says("free d").out, "13 blocks free\n");
    assert!(small.read("d") == uncut.read("d") && small.read("d.cat") == uncut.read("d.cat"));
    assert_eq!(small.read("d.log"), LINE.as_bytes());
    complains(&large, DAMAGED);
}

#[test]
fn a_redo_file_beside_the_catalogue_of_another_version_is_refused() {
    let [small, large] = Scratch::cases_6();
    let catalogues = [large.read("d.cat"), small.read("d.cat")];
    for (scratch, other) in [small, large].map(decided_on).into_iter().zip(catalogues) {
        scratch.write("d.cat", &other);
        complains(&scratch, "this redo file belongs to another disk; nothing was changed");
    }
}

#[test]
fn a_redo_file_of_another_disk_is_refused() {
    let scratch = Scratch::disk(16, &[(9, 1), (2, 2)]);
    scratch.write("d.redo", &decided().read("d.redo"));
    complains(&scratch, "this redo file belongs to another disk; nothing was changed");
    let longer = decided();
    let mut image = longer.read("d");
    image.extend_from_slice(&[0; 512]);
    longer.write("d", &image);
    complains(&longer, "this redo file belongs to another disk; nothing was changed");
}

#[test]
fn a_redo_file_without_its_image_is_kept() {
    let scratch = decided();
    let image = scratch.read("d");
    std::fs::remove_file(scratch.path("d")).expect("the image");
    let (status, complaint) = scratch.refuses("format d --blocks 16 --force");
    assert_eq!(status, 3);
    assert!(complaint.starts_with("evdisk: d.redo: a removal or replacement waits here for its image"), "{complaint}");
    scratch.write("d", &image);
    assert_eq!(scratch.says("free d").out, "13 blocks free\n");
}

#[test]
fn a_catalogue_without_its_image_is_only_replaced_by_force() {
    let scratch = Scratch::case_6();
    std::fs::remove_file(scratch.path("d")).expect("the image");
    let (status, complaint) = scratch.refuses("format d --blocks 4");
    assert_eq!((status, complaint.contains("d.cat: is there already")), (3, true), "{complaint}");
    assert_eq!(scratch.does("format d --blocks 4 --force"), "formatted: 4 blocks\n");
    assert_eq!(scratch.does("check d"), "sound: 4 blocks\n");
}

#[test]
fn an_image_that_a_format_left_without_a_catalogue_is_told_of_and_removed_by_hand() {
    let scratch = Scratch::new();
    scratch.write("d", &[0; 700]);
    let (status, complaint) = scratch.refuses("list d");
    assert_eq!((status, complaint.contains("d.cat: No such file or directory")), (3, true), "{complaint}");
    let (status, complaint) = scratch.refuses("format d --blocks 2");
    assert_eq!((status, complaint.contains("d: is there already")), (3, true), "{complaint}");
    std::fs::remove_file(scratch.path("d")).expect("the image");
    assert_eq!(scratch.does("format d --blocks 2"), "formatted: 2 blocks\n");
}

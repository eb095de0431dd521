//! Disks with the large catalogue: which disks get it, and what the commands do on the greatest of them.

use crate::scratch::{Said, Scratch, TOOL};
use std::fs::{self, File};
use std::os::unix::fs::MetadataExt;
use std::process::Command;

/// The lengths of the catalogue and of the image.
fn lengths(scratch: &Scratch) -> (u64, u64) {
    let length = |name: &str| fs::metadata(scratch.path(name)).expect("a file").len();
    (length("d.cat"), length("d"))
}

#[test]
fn a_disk_gets_the_large_catalogue_above_4096_blocks_or_when_asked() {
    let cases = [
        ("--blocks 1", "formatted: 1 block\n", (4096, 512)),
        ("--blocks 4096", "formatted: 4096 blocks\n", (4096, 4096 * 512)),
        ("--blocks 4097", "formatted: 4097 blocks, large catalogue\n", (16_384, 4097 * 512)),
        ("--blocks 1048576", "formatted: 1048576 blocks, large catalogue\n", (16_384, 512 << 20)),
        ("--blocks 1 --large", "formatted: 1 block, large catalogue\n", (16_384, 512)),
        ("--blocks 16 --large", "formatted: 16 blocks, large catalogue\n", (16_384, 16 * 512)),
        ("--large --blocks 4096", "formatted: 4096 blocks, large catalogue\n", (16_384, 4096 * 512)),
    ];
    for (words, said, long) in cases {
        let scratch = Scratch::new();
        assert_eq!(scratch.does(&format!("format d {words}")), said);
        assert_eq!(lengths(&scratch), long, "{words}");
        assert_eq!(scratch.does("check d"), said.replace("formatted", "sound"));
    }
}

#[test]
fn an_image_that_is_formatted_again_gets_the_catalogue_that_a_new_one_would() {
    let scratch = Scratch::large_disk(16, &[(5, 3)]);
    let image = scratch.read("d");
    assert_eq!(scratch.does("format d --force"), "formatted: 16 blocks\n");
    assert_eq!(lengths(&scratch), (4096, 16 * 512));
    assert_eq!(scratch.does("format d --force --large"), "formatted: 16 blocks, large catalogue\n");
    assert_eq!(lengths(&scratch), (16_384, 16 * 512));
    assert!(scratch.read("d") == image);
    let resized = |blocks: u64| {
        let image = File::options().write(true).open(scratch.path("d")).expect("the image");
        image.set_len(blocks * 512).expect("a file with a hole");
    };
    resized(4097);
    assert_eq!(scratch.does("format d --force --blocks 4097"), "formatted: 4097 blocks, large catalogue\n");
    resized(1 << 20);
    assert_eq!(scratch.does("format d --force"), "formatted: 1048576 blocks, large catalogue\n");
    let catalogue = scratch.read("d.cat");
    for blocks in [(1 << 20) + 1, 1 << 31] {
        resized(blocks);
        let (again, check) = (scratch.says("format d --force"), scratch.says("check d"));
        assert!(again.status == 1 && again.err.starts_with("evdisk: refused 2: "), "{again:?}");
        assert!(check.status == 1 && check.err.starts_with("evdisk: refused 4: "), "{check:?}");
    }
    assert!(scratch.read("d.cat") == catalogue);
}

/// The greatest disk, with events 1, 2 and 3 of 8,192 blocks each.
fn greatest() -> Scratch {
    let scratch = Scratch::new();
    scratch.does("format d --blocks 1048576");
    for id in 1..=3 {
        scratch.write(&format!("event-{id}"), &content(id, 8192));
        scratch.does(&format!("add d {id} event-{id}"));
    }
    scratch
}

/// An event's bytes, with its id and the number of the page in each page.
fn content(id: u8, pages: u32) -> Vec<u8> {
    (0..pages).flat_map(|page| [vec![id; 508], page.to_be_bytes().to_vec()].concat()).collect()
}

#[test]
fn events_on_the_greatest_disk_are_shifted_listed_drawn_and_read_back() {
    let scratch = greatest();
    assert_eq!(scratch.does("remove d 1"), "removed 1: 8192 blocks copied (contract limit 8192)\n");
    scratch.write("event-4", &content(4, 65_537));
    let added = "added 4: 65537 blocks in 2 pieces, 1 break: (65536,65536) (0,1)\n";
    assert_eq!(scratch.does("add d 4 event-4"), added);
    let list = scratch.does("list d");
    let lines: Vec<&str> = list.lines().collect();
    assert_eq!(lines[1], "    2     8192       1       0  (24576,8192)");
    assert_eq!(lines[3], "    4    65537       2       1  (65536,65536) (0,1)");
    assert_eq!(lines[5], "1048576 blocks, large catalogue, 3 files");
    for id in 2..=4 {
        assert!(scratch.event(id) == scratch.read(&format!("event-{id}")), "event {id}");
    }
    let page = scratch.output(&["read", "d", "4", "--first", "65536"]).stdout;
    assert!(page == content(4, 65_537)[65_536 * 512..]);
    let log = scratch.does("log d --json");
    assert!(log.ends_with("Z\",\"id\":1,\"blocks\":8192,\"copied\":8192,\"limit\":8192}]\n"), "{log}");
    let map = scratch.does("map d");
    let rows: Vec<&str> = map.lines().collect();
    assert_eq!(rows[0], format!("      0  +{}", ".".repeat(63)));
    assert_eq!(rows[1], format!("  16384  {}{}", "3".repeat(32), "2".repeat(32)));
    assert_eq!(rows[4], format!("  65536  {}", "4".repeat(64)));
    assert_eq!(rows[65], "    each letter is 256 blocks; + where they are not all of one event or all free");
    assert_eq!(rows[66], "    2  id 2         8192 blocks  (24576,8192)");
    assert_eq!(rows.len(), 64 + 2 + 3 + 1);
}

/// The halves (16384,8192) and (24576,8192) are joined without a copy.
#[test]
fn the_removals_that_make_room_on_the_greatest_disk_are_listed() {
    let scratch = greatest();
    let table = "   id  blocks  copies   limit
    3    8192       0    8192
    1    8192    8192    8192
    2    8192    8192    8192
any one of these removals would make room for 1024001 blocks (1024000 free)
";
    assert_eq!(scratch.does("which d 1024001"), table);
    assert_eq!(scratch.does("remove d 2 --dry-run"), "would remove 2: 8192 blocks copied (contract limit 8192)\n");
    let file = File::create(scratch.path("hole")).expect("a scratch file");
    file.set_len(1_024_001 * 512).expect("a file with a hole");
    assert_eq!(scratch.does("which d --file hole"), table);
    let said = scratch.says("add d 4 hole");
    assert!(said.status == 1 && said.err.ends_with("; removing 3 would make room (0 blocks copied)\n"), "{said:?}");
}

/// The stored letter is the byte 1, which is none and ranks below R.
#[test]
fn an_event_on_the_greatest_disk_is_replaced_by_a_longer_one() {
    let scratch = greatest();
    let mut reviewed = content(4, 65_537);
    reviewed[6] = b'R';
    scratch.write("reviewed", &reviewed);
    let copied = "replaced 1: 8192 blocks copied (contract limit 8192)";
    let lying = "65537 blocks in 2 pieces, 1 break: (65536,65536) (0,1)";
    assert_eq!(scratch.does("replace d 1 reviewed"), format!("{copied}; {lying}\n"));
    for (id, file) in [(1, "reviewed"), (2, "event-2"), (3, "event-3")] {
        assert!(scratch.event(id) == scratch.read(file), "event {id}");
    }
    assert_eq!(scratch.does("free d"), format!("{} blocks free\n", (1 << 20) - 65_537 - 2 * 8192));
    let log = scratch.does("log d --json");
    assert!(log.ends_with("Z\",\"id\":1,\"blocks\":8192,\"copied\":8192,\"limit\":8192}]\n"), "{log}");
}

/// Runs the tool with no more address space than a fraction of the image would take.
fn with_little_memory(scratch: &Scratch, words: &[&str]) -> Said {
    let mut shell = Command::new("sh");
    shell.args(["-c", "ulimit -v 65536 && exec \"$0\" \"$@\"", TOOL]).args(words).current_dir(scratch.path("."));
    Said::of(&shell.output().expect("the shell runs"))
}

#[test]
fn commands_that_need_the_catalogue_alone_do_not_read_the_image() {
    let scratch = greatest();
    for words in [&["free", "d"][..], &["list", "d"], &["breaks", "d", "2"], &["map", "d"], &["log", "d"]] {
        let said = with_little_memory(&scratch, words);
        assert_eq!((said.status, said.err.as_str()), (0, ""), "{words:?}");
        assert_eq!(said.out, scratch.does(&words.join(" ")));
    }
}

#[test]
fn a_new_image_takes_no_room_for_its_zeros() {
    let scratch = Scratch::new();
    scratch.does("format d --blocks 1048576");
    let about = fs::metadata(scratch.path("d")).expect("the image");
    assert!(about.blocks() * 512 < 1 << 20, "{} blocks of 512 bytes", about.blocks());
    scratch.write("e", &content(9, 3));
    scratch.does("add d 9 e");
    assert!(scratch.event(9) == content(9, 3));
}

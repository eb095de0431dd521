//! What the commands do and say when all is well.

use crate::scratch::Scratch;

#[test]
fn the_commands_say_what_they_did() {
    let scratch = Scratch::new();
    scratch.write("e", &miniseed::event(5, 3));
    scratch.write("one", &miniseed::event(9, 1));
    assert_eq!(scratch.does("format d --blocks 16"), "formatted: 16 blocks\n");
    assert_eq!(scratch.does("add d 5 e"), "added 5: 3 blocks in 2 pieces, 0 breaks: (0,2+1)\n");
    assert_eq!(scratch.does("add d 9 one"), "added 9: 1 block in 1 piece, 0 breaks: (3,1)\n");
    assert_eq!(scratch.does("breaks d 5"), "5: 0 breaks (contract limit 1)\n");
    assert_eq!(scratch.does("free d"), "12 blocks free\n");
    assert_eq!(scratch.does("check d"), "sound: 16 blocks\n");
    assert_eq!(scratch.does("remove d 9"), "removed 9: 0 blocks copied (contract limit 0)\n");
}

#[test]
fn case_7_is_listed_and_drawn() {
    let scratch = Scratch::case_6();
    assert_eq!(scratch.does("remove d 5"), "removed 5: 1 block copied (contract limit 2)\n");
    let list = "   id  blocks  pieces  breaks  places (first block,lengths)
    2       2       1       0  (4,2)
    9       1       1       0  (7,1)
 free      13       3          (0,4) (6,1) (8,8)
16 blocks, 2 files
";
    assert_eq!(scratch.does("list d"), list);
    let map = scratch.does("map d --width 8");
    assert!(map.starts_with("    0  ....22.9\n    8  ........\n\n    2  id 2 "), "{map}");
    assert!(!map.contains('\u{1b}'), "no colours where there is no terminal");
}

/// For (0,2) and (4,2) event 2 would be copied; (4,2) and (6,2) are the halves of (4,4).
#[test]
fn free_buddies_are_joined_first() {
    for scratch in Scratch::disks(8, &[(1, 1), (2, 2), (3, 3)]) {
        let image = scratch.read("d");
        assert_eq!(scratch.does("remove d 1"), "removed 1: 0 blocks copied (contract limit 0)\n");
        assert_eq!(scratch.does("remove d 3"), "removed 3: 0 blocks copied (contract limit 3)\n");
        let list = "   id  blocks  pieces  breaks  places (first block,lengths)
    2       2       1       0  (2,2)
 free       6       2          (0,2) (4,4)
8 blocks, ";
        assert!(scratch.does("list d").starts_with(list), "{}", scratch.does("list d"));
        assert!(scratch.read("d") == image && scratch.event(2) == scratch.read("event-2"));
    }
}

#[test]
fn shifted_events_are_read_back_equal() {
    let events: Vec<(u16, usize)> = (1..=40).map(|id| (id, 1 + usize::from(id) * 7 % 23)).collect();
    for scratch in Scratch::disks(500, &events) {
        every_other_is_removed(&scratch);
    }
}

/// Removes every other of 40 events and sees to it that the others are shifted and keep their pages.
fn every_other_is_removed(scratch: &Scratch) {
    let place = |id: u16| {
        scratch.does("list d").lines().find(|line| line.starts_with(&format!("{id:>5} "))).map(str::to_string)
    };
    let mut shifted = 0;
    for removed in (1..=40).step_by(2) {
        let before: Vec<_> = (2..=40).step_by(2).map(place).collect();
        scratch.does(&format!("remove d {removed}"));
        let after: Vec<_> = (2..=40).step_by(2).map(place).collect();
        shifted += before.iter().zip(&after).filter(|(before, after)| before != after).count();
        for id in (2..=40).step_by(2).chain(removed + 2..=40) {
            assert!(
                scratch.event(id) == scratch.read(&format!("event-{id}")),
                "event {id} after {removed} was removed"
            );
        }
    }
    assert!(shifted > 20, "only {shifted} events were shifted");
    let all: Vec<u8> = (2..=40).step_by(2).flat_map(|id| scratch.event(id)).collect();
    assert_eq!(miniseed::samples(&all).expect("real records").len(), all.len() / 512 * 112);
}

#[test]
fn pages_are_read_from_the_first_asked_on() {
    let scratch = Scratch::disk(16, &[(7, 5)]);
    let event = scratch.read("event-7");
    let pages = |words: &[&str]| scratch.output(&[&["read", "d", "7"], words].concat()).stdout;
    assert_eq!(pages(&["--first", "3"]), event[3 * 512..]);
    assert_eq!(pages(&["--first=1", "--pages=2"]), event[512..3 * 512]);
    assert_eq!(pages(&["--pages", "1"]), event[..512]);
    assert_eq!(scratch.does("read d 7 --first 4 --output page"), "");
    assert_eq!(scratch.read("page"), event[4 * 512..]);
}

#[test]
fn the_log_has_a_line_for_each_removal() {
    let scratch = Scratch::case_6();
    assert_eq!(scratch.does("log d"), "date                     id  blocks  copied   limit\n");
    scratch.does("remove d 5");
    scratch.does("remove d 9");
    let log = scratch.does("log d");
    let lines: Vec<&str> = log.lines().collect();
    assert_eq!(lines.len(), 3);
    assert!(lines[1].ends_with("Z      5       3       1       2"), "{log}");
    assert!(lines[2].ends_with("Z      9       1       0       1"), "{log}");
}

#[test]
fn an_image_keeps_its_bytes_when_it_is_formatted_again() {
    let scratch = Scratch::case_6();
    let image = scratch.read("d");
    assert_eq!(scratch.does("format d --force"), "formatted: 16 blocks\n");
    assert_eq!(scratch.does("free d"), "16 blocks free\n");
    assert_eq!(scratch.does("format d --blocks 16 --force"), "formatted: 16 blocks\n");
    assert!(scratch.read("d") == image);
}

#[test]
fn a_drawing_is_written_to_a_file_or_to_standard_output() {
    let scratch = Scratch::case_6();
    assert_eq!(scratch.does("map d --svg map.svg"), "");
    let svg = String::from_utf8(scratch.read("map.svg")).expect("text");
    assert_eq!(svg, scratch.does("map d --svg -"));
    for title in ["id 2: blocks 4 to 5", "id 5: blocks 0 to 2", "free: blocks 6 to 7", "free: blocks 8 to 15"] {
        assert!(svg.contains(&format!("<title>{title}</title></rect>")), "{title}");
    }
    assert_eq!(svg.matches("</title></rect>").count(), 5, "id 5 is one read");
}

#[test]
fn names_that_look_like_options_stand_after_two_dashes() {
    let scratch = Scratch::new();
    assert_eq!(scratch.does("format --blocks=1 -- --disk"), "formatted: 1 block\n");
    assert_eq!(scratch.does("check -- --disk"), "sound: 1 block\n");
    assert_eq!(scratch.read("--disk"), [0; 512]);
}

#[test]
fn the_greatest_disk_with_the_small_catalogue_takes_an_event_that_fills_it() {
    let scratch = Scratch::disk(4096, &[(65535, 4096)]);
    assert!(scratch.event(65535) == scratch.read("event-65535"));
    assert_eq!(scratch.does("free d"), "0 blocks free\n");
}

//! What the tool says of breaks: pieces that adjoin in page order are shown as one read, and no break is counted there.

use crate::scratch::Scratch;
use miniseed::Quality;

/// Document 01's case 11 before its removal, with either catalogue. Event 4 keeps block 7 from event 3.
fn before_case_11() -> [Scratch; 2] {
    let disks = Scratch::disks(16, &[(2, 7), (4, 1), (3, 5), (1, 1)]);
    for scratch in &disks {
        assert_eq!(scratch.does("remove d 4"), "removed 4: 0 blocks copied (contract limit 0)\n");
    }
    disks
}

/// What the tool lists of the events and of what is free, without the line of names and the last one.
fn listed(scratch: &Scratch) -> String {
    let list = scratch.does("list d");
    let lines: Vec<&str> = list.lines().collect();
    assert_eq!(lines[0], "   id  blocks  pieces  breaks  places (first block,lengths)");
    lines[1..lines.len() - 1].join("\n")
}

#[test]
fn case_11_is_listed_before_its_removal_and_after_it() {
    for scratch in before_case_11() {
        let before = "    1       1       1       0  (13,1)
    2       7       3       0  (0,4+2+1)
    3       5       2       0  (8,4+1)
 free       3       2          (7,1) (14,2)";
        assert_eq!(listed(&scratch), before);
        assert_eq!(scratch.does("breaks d 2"), "2: 0 breaks (contract limit 2)\n");
        assert_eq!(scratch.does("remove d 1"), "removed 1: 3 blocks copied (contract limit 3)\n");
        let after = "    2       7       3       2  (0,4) (14,2) (13,1)
    3       5       2       0  (8,4+1)
 free       4       1          (4,4)";
        assert_eq!(listed(&scratch), after);
        assert_eq!(scratch.does("breaks d 2"), "2: 2 breaks (contract limit 2)\n");
        assert_eq!(scratch.does("breaks d 3"), "3: 0 breaks (contract limit 1)\n");
        assert!([2, 3].iter().all(|&id| scratch.event(id) == scratch.read(&format!("event-{id}"))));
    }
}

#[test]
fn case_11_is_drawn_before_its_removal_and_after_it() {
    for scratch in before_case_11() {
        let legend = |name: &str| {
            let map = scratch.does("map d");
            let line = map.lines().find(|line| line.contains(name)).map(str::to_string);
            line.and_then(|line| line.split_once("blocks  ").map(|(_, places)| places.to_string()))
        };
        let drawn = |title: &str| scratch.does("map d --svg -").contains(&format!("<title>{title}</title></rect>"));
        assert_eq!(legend("id 2"), Some("(0,4+2+1)".to_string()));
        assert_eq!(legend("free"), Some("(7,1) (14,2)".to_string()));
        assert!(drawn("id 2: blocks 0 to 6") && drawn("id 3: blocks 8 to 12"));
        scratch.does("remove d 1");
        assert_eq!(legend("id 2"), Some("(0,4) (14,2) (13,1)".to_string()));
        assert_eq!(legend("free"), Some("(4,4)".to_string()));
        assert!(drawn("id 2: blocks 0 to 3") && drawn("id 2: blocks 14 to 15") && drawn("id 2: blocks 13 to 13"));
        assert!(drawn("id 3: blocks 8 to 12") && !drawn("id 2: blocks 13 to 15"));
    }
}

/// On the disk of case 4 another event of 3 blocks comes to (4,2) (3,1): blocks 4, 5, 3.
#[test]
fn events_that_adjoin_by_first_block_alone_have_a_break() {
    for scratch in Scratch::disks(16, &[(5, 3)]) {
        scratch.write("six", &miniseed::event(6, 3));
        assert_eq!(scratch.does("add d 6 six"), "added 6: 3 blocks in 2 pieces, 1 break: (4,2) (3,1)\n");
        assert_eq!(scratch.does("breaks d 6"), "6: 1 break (contract limit 1)\n");
        let copied = "replaced 6: 0 blocks copied (contract limit 2)";
        scratch.reviewed("eleven", 11, Quality::Q);
        let lying = "11 blocks in 3 pieces, 2 breaks: (8,8) (4,2) (3,1)";
        assert_eq!(scratch.does("replace d 6 eleven"), format!("{copied}; {lying}\n"));
        scratch.reviewed("seven", 7, Quality::M);
        let lying = "7 blocks in 3 pieces, 1 break: (4,4+2) (3,1)";
        assert_eq!(scratch.does("replace d 6 seven"), format!("{copied}; {lying}\n"));
    }
}

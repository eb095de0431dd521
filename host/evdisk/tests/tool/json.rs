//! The answers for scripts: what they are, and that they are JSON.

use crate::scratch::Scratch;
use miniseed::Quality;

/// What follows the JSON value that a text starts with, if it starts with one.
fn after_value(text: &str) -> Option<&str> {
    match text.chars().next()? {
        '{' => after_list(text, '}', |text| after_value(after_text(text)?.strip_prefix(':')?)),
        '[' => after_list(text, ']', after_value),
        '"' => after_text(text),
        't' => text.strip_prefix("true"),
        'f' => text.strip_prefix("false"),
        _ => {
            let rest = text.trim_start_matches(|digit: char| digit.is_ascii_digit());
            let number = &text[..text.len() - rest.len()];
            (!number.is_empty() && (number == "0" || !number.starts_with('0'))).then_some(rest)
        }
    }
}

/// What follows a text in quotes, which here never has a quote inside.
fn after_text(text: &str) -> Option<&str> {
    Some(text.strip_prefix('"')?.split_once('"')?.1)
}

fn after_list(text: &str, end: char, member: impl Fn(&str) -> Option<&str>) -> Option<&str> {
    let mut rest = &text[1..];
    if let Some(after) = rest.strip_prefix(end) {
        return Some(after);
    }
    loop {
        rest = member(rest)?;
        match rest.strip_prefix(',') {
            Some(next) => rest = next,
            None => return rest.strip_prefix(end),
        }
    }
}

/// Runs the tool and gives its answer, which must be one JSON value and a line's end.
fn json(scratch: &Scratch, words: &str) -> String {
    let said = scratch.does(&format!("{words} --json"));
    assert_eq!(after_value(&said), Some("\n"), "{said}");
    said.trim_end().to_string()
}

#[test]
fn each_command_answers_in_json() {
    let scratch = Scratch::case_6();
    scratch.write("e", &miniseed::event(7, 9));
    assert_eq!(json(&scratch, "format new --blocks 5"), r#"{"blocks":5,"version":1}"#);
    let added = r#"{"id":7,"blocks":9,"breaks":1,"pieces":[{"first":8,"length":8},{"first":6,"length":1}]}"#;
    assert_eq!(json(&scratch, "add d 7 e"), added);
    assert_eq!(json(&scratch, "breaks d 7"), r#"{"id":7,"breaks":1,"limit":1}"#);
    assert_eq!(json(&scratch, "free d"), r#"{"free":1}"#);
    assert_eq!(json(&scratch, "check d"), r#"{"blocks":16,"version":1}"#);
    let removal = r#"{"id":2,"blocks":2,"copied":0,"limit":0"#;
    assert_eq!(json(&scratch, "remove d 2 --dry-run"), format!(r#"{removal},"dry_run":true}}"#));
    assert_eq!(json(&scratch, "remove d 2"), format!("{removal}}}"));
}

#[test]
fn the_removals_that_make_room_are_a_list_in_json() {
    let scratch = Scratch::case_6();
    let short = r#","free":10,"fits":false,"removals":"#;
    let five = r#"{"id":5,"blocks":3,"copied":1,"limit":2}"#;
    let others = r#"{"id":2,"blocks":2,"copied":0,"limit":2},{"id":9,"blocks":1,"copied":0,"limit":0}"#;
    assert_eq!(json(&scratch, "which d 11"), format!(r#"{{"blocks":11{short}[{others},{five}]}}"#));
    assert_eq!(json(&scratch, "which d 13"), format!(r#"{{"blocks":13{short}[{five}]}}"#));
    assert_eq!(json(&scratch, "which d 14"), format!(r#"{{"blocks":14{short}[]}}"#));
    let fits = r#"{"blocks":3,"free":10,"fits":true,"removals":[]}"#;
    assert_eq!(json(&scratch, "which d --file event-5"), fits);
}

#[test]
fn a_replacement_in_json_tells_the_new_event_and_the_blocks_of_the_old_one() {
    let scratch = Scratch::case_6();
    scratch.reviewed("reviewed", 9, Quality::Q);
    let numbers = r#"{"id":5,"blocks":9,"replaced":3,"copied":1,"limit":2,"breaks":1,"pieces":"#;
    let pieces = r#"[{"first":8,"length":8},{"first":6,"length":1}]}"#;
    assert_eq!(json(&scratch, "replace d 5 reviewed"), format!("{numbers}{pieces}"));
    let log = json(&scratch, "log d");
    assert!(log.ends_with(r#"Z","id":5,"blocks":3,"copied":1,"limit":2}]"#), "{log}");
}

#[test]
fn a_list_in_json_has_all_that_the_table_has() {
    let scratch = Scratch::disk(6, &[(300, 3)]);
    let pieces = r#"[{"first":4,"length":2},{"first":0,"length":1}]"#;
    let file = format!(r#"{{"id":300,"blocks":3,"breaks":1,"pieces":{pieces},"reads":{pieces}}}"#);
    let free = r#"[{"first":1,"length":1},{"first":2,"length":2}]"#;
    let list = format!(r#"{{"blocks":6,"free":3,"files":[{file}],"free_pieces":{free},"version":1}}"#);
    assert_eq!(json(&scratch, "list d"), list);
    scratch.does("remove d 300");
    let empty = r#"{"blocks":6,"free":6,"files":[],"free_pieces":[{"first":0,"length":4},{"first":4,"length":2}]"#;
    assert_eq!(json(&scratch, "list d"), format!(r#"{empty},"version":1}}"#));
}

/// Two pieces are one read, and one piece is one too.
#[test]
fn pieces_that_adjoin_are_one_read_in_json() {
    let scratch = Scratch::new();
    scratch.write("three", &miniseed::event(5, 3));
    scratch.does("format d --blocks 16");
    let pieces = r#"[{"first":0,"length":2},{"first":2,"length":1}]"#;
    assert_eq!(json(&scratch, "add d 5 three"), format!(r#"{{"id":5,"blocks":3,"breaks":0,"pieces":{pieces}}}"#));
    assert_eq!(json(&scratch, "breaks d 5"), r#"{"id":5,"breaks":0,"limit":1}"#);
    let files = |rest: &str| format!(r#""files":[{{"id":5,"blocks":3,"breaks":0,"pieces":{pieces},"reads":{rest}"#);
    let list = json(&scratch, "list d");
    assert!(list.contains(&files(r#"[{"first":0,"length":3}]}],"free_pieces":[{"first":3,"length":1},"#)), "{list}");
    scratch.reviewed("seven", 7, Quality::Q);
    let numbers = r#"{"id":5,"blocks":7,"replaced":3,"copied":0,"limit":15,"breaks":0,"pieces":"#;
    let pieces = r#"[{"first":0,"length":4},{"first":4,"length":2},{"first":6,"length":1}]}"#;
    assert_eq!(json(&scratch, "replace d 5 seven"), format!("{numbers}{pieces}"));
}

#[test]
fn a_disk_with_the_large_catalogue_has_version_2_in_json() {
    let scratch = Scratch::new();
    assert_eq!(json(&scratch, "format d --blocks 70000"), r#"{"blocks":70000,"version":2}"#);
    assert_eq!(json(&scratch, "check d"), r#"{"blocks":70000,"version":2}"#);
    let list = json(&scratch, "list d");
    assert!(list.starts_with(r#"{"blocks":70000,"free":70000,"files":[],"free_pieces":[{"first":0,"length":65536},"#));
    assert!(list.ends_with(r#"{"first":69984,"length":16}],"version":2}"#), "{list}");
}

#[test]
fn the_log_in_json_is_a_list() {
    let scratch = Scratch::case_6();
    assert_eq!(json(&scratch, "log d"), "[]");
    scratch.does("remove d 5");
    scratch.does("remove d 2");
    let log = json(&scratch, "log d");
    assert!(log.starts_with(r#"[{"date":"20"#), "{log}");
    assert!(log.contains(r#"Z","id":5,"blocks":3,"copied":1,"limit":2},{"date":"#), "{log}");
    assert!(log.ends_with(r#"Z","id":2,"blocks":2,"copied":0,"limit":0}]"#), "{log}");
}

#[test]
fn commands_whose_answer_is_no_value_have_no_json() {
    let scratch = Scratch::case_6();
    for words in ["read d 5 --json", "map d --json"] {
        let (status, complaint) = scratch.refuses(words);
        assert_eq!(status, 2);
        assert!(complaint.contains("--json is no option of this command"), "{complaint}");
    }
}

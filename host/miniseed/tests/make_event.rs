//! The program `make-event`: what it writes, and what it says to words that it does not understand.

use std::process::{Command, Output};

fn make_event(words: &str) -> Output {
    Command::new(env!("CARGO_BIN_EXE_make-event")).args(words.split_whitespace()).output().expect("it runs")
}

#[test]
fn it_writes_the_event_of_its_seed() {
    let output = make_event("--seed 7 --records 3");
    assert_eq!(output.status.code(), Some(0));
    assert_eq!(output.stdout, miniseed::event(7, 3));
    let reviewed = make_event("--quality M --records 2 --seed 7");
    assert_eq!(reviewed.stdout, miniseed::event_of(7, 2, miniseed::Quality::M));
}

#[test]
fn it_refuses_words_that_it_does_not_understand() {
    let wrong = [
        ("", "--seed is missing"),
        ("--seed 1", "--records is missing"),
        ("--seed 1 --records", "--records needs a value"),
        ("--seed x --records 1", "--seed cannot be x"),
        ("--seed 1 --records 1000001", "--records cannot be 1000001"),
        ("--seed 1 --records 1 --quality Z", "--quality cannot be Z"),
        ("--sed 1", "there is no option --sed"),
    ];
    for (words, why) in wrong {
        let output = make_event(words);
        let complaint = String::from_utf8_lossy(&output.stderr).into_owned();
        assert_eq!((output.status.code(), output.stdout.len()), (Some(2), 0), "make-event {words}");
        assert!(complaint.starts_with(&format!("make-event: {why}\nusage: ")), "{complaint}");
    }
}

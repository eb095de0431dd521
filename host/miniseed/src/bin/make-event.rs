//! `make-event --seed S --records N [--quality R|D|Q|M]` writes a synthetic event to standard output.

#![forbid(unsafe_code)]

use miniseed::{event_of, Quality};
use std::io::Write;
use std::process::ExitCode;

const USAGE: &str = "usage: make-event --seed S --records N [--quality R|D|Q|M] > FILE
Writes N miniSEED records of 512 bytes (N up to 1000000), the same for the same seed S.";
const MOST_RECORDS: usize = 1_000_000;

/// Seed, number of records and quality, or what is wrong with the words.
fn understood(words: &[String]) -> Result<(u64, usize, Quality), String> {
    let (mut seed, mut records, mut quality) = (None, None, Quality::D);
    for pair in words.chunks(2) {
        let value = pair.get(1).ok_or(format!("{} needs a value", pair[0]))?;
        let wrong = || format!("{} cannot be {value}", pair[0]);
        match pair[0].as_str() {
            "--seed" => seed = Some(value.parse().map_err(|_| wrong())?),
            "--records" => records = Some(value.parse().ok().filter(|n| *n <= MOST_RECORDS).ok_or_else(wrong)?),
            "--quality" => quality = quality_of(value).ok_or_else(wrong)?,
            other => return Err(format!("there is no option {other}")),
        }
    }
    Ok((seed.ok_or("--seed is missing")?, records.ok_or("--records is missing")?, quality))
}

fn quality_of(word: &str) -> Option<Quality> {
    Quality::ALL.into_iter().find(|quality| word.as_bytes() == [quality.letter()])
}

fn main() -> ExitCode {
    let words: Vec<String> = std::env::args().skip(1).collect();
    if words == ["--help"] {
        println!("{USAGE}");
        return ExitCode::SUCCESS;
    }
    let (seed, records, quality) = match understood(&words) {
        Ok(what) => what,
        Err(why) => {
            eprintln!("make-event: {why}\n{USAGE}");
            return ExitCode::from(2);
        }
    };
    match std::io::stdout().write_all(&event_of(seed, records, quality)) {
        Ok(()) => ExitCode::SUCCESS,
        Err(why) => {
            eprintln!("make-event: standard output: {why}");
            ExitCode::from(3)
        }
    }
}

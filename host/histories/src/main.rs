//! Histories of calls on the proved event disk manager, beside a second implementation and the plain book.

#![forbid(unsafe_code)]

mod alphabet;
mod apart;
mod arguments;
mod before;
mod both;
mod breaks;
#[cfg(test)]
mod breaks_tests;
mod call;
mod damage;
mod fewest;
mod guarded;
mod history;
mod landmarks;
mod large;
mod layouts;
mod lengths;
mod letters;
mod listed;
mod lists;
mod long;
mod merges;
mod mixes;
mod numbers;
mod random;
mod removals;
#[cfg(test)]
mod replace_tests;
mod scenes;
mod sides;
mod small;
mod spoil;
mod stack;
mod staircases;
mod states;
mod tally;
#[cfg(test)]
mod tests;
mod touched;
mod twists;
mod watch;
#[cfg(test)]
mod which_tests;
mod wild;

use std::process::ExitCode;
use std::time::Instant;

use arguments::{parse, Command, Options, HELP};

fn main() -> ExitCode {
    match parse(std::env::args().skip(1)) {
        Ok((command, options)) if run(&command, &options) => ExitCode::SUCCESS,
        Ok(_) => ExitCode::FAILURE,
        Err(wrong) => {
            eprint!("histories: {wrong}\n\n{HELP}");
            ExitCode::from(2)
        }
    }
}

/// Runs a command. False if something differed.
fn run(command: &Command, options: &Options) -> bool {
    match command {
        Command::Help => {
            print!("{HELP}");
            true
        }
        Command::StackScene { scene, version, left } => stack::run_scene(scene, *version, *left),
        Command::Random => timed(|| random::run(options.seed, options.calls)),
        Command::Long => timed(|| long::run(options.seed, options.longest)),
        Command::Small => timed(|| small::run(options.depth)),
        Command::Damage => timed(|| damage::run(options.seed, options.count)),
        Command::Stack => timed(stack::run),
        Command::All => {
            let parts = [Command::Random, Command::Long, Command::Small, Command::Damage, Command::Stack];
            let passed = parts.iter().filter(|part| run(part, options)).count();
            println!("histories: {passed} of {} parts without a difference", parts.len());
            passed == parts.len()
        }
    }
}

/// Runs a part and prints how long it took.
fn timed(part: impl FnOnce() -> bool) -> bool {
    let start = Instant::now();
    let passed = part();
    let end = if passed { "passed" } else { "FAILED" };
    println!("  {end} in {:.1} s", start.elapsed().as_secs_f64());
    passed
}

//! The arguments of the program.

use crate::builds::Named;
use crate::sides::{Call, Side};

pub const HELP: &str = "\
bench: times the proved event disk manager beside a plain twin and beside the second implementation

  bench [--rounds N] [--write] [--beside NAME=FILE]..
  bench --profile SIDE CALL DISK N

  --rounds N        how often each batch of calls is timed, 301 if not given
  --write           also writes the tables to docs/BENCHMARK.md, between its marks, and the plot to
                    docs/benchmark.svg
  --beside NAME=FILE
                    another build of the manager takes part in the same rounds, and the tables have its times and
                    the ratios of the proved calls to it; may be repeated. FILE is a shared library, by a path from
                    the repository on, that is made from an archive of the build:
                    cc -shared -o FILE -Wl,--whole-archive libevdisk.a -Wl,--no-whole-archive
                    A build that does not have a version of the catalogue is left out on its disks, and one that has
                    no replace or no which in that row. One that merges other free sections in a removal is timed, and
                    it is said how many blocks it copies. One that counts as breaks the pieces less one is timed too
  --profile SIDE CALL DISK N
                    only makes a call N times, for a profiler to watch:
                    SIDE is proved, twin or model
                    CALL is format, add, remove, replace, read-page, read-file, breaks, free, check or which
                    DISK is 261-8, 261-64, 4096-8 or 4095-64: blocks and files, in the small catalogue; or
                    261-8-large, 1048576-8 or 1048576-64, in the large one
  --help            this text

Times depend on the machine and on what else it does; the ratios and their spread are what to read. It ends with 0,
or with 2 if something is wrong: also if a list of all removals takes more than 10 times as long as a removal.
";

/// What to do.
#[derive(Debug, PartialEq, Eq)]
pub enum Task {
    Help,
    Measure { rounds: usize, write: bool, beside: Vec<Named> },
    Profile { side: Side, call: Call, disk: String, calls: usize },
}

/// The task that the arguments state, or what is wrong with them.
pub fn parse(mut arguments: impl Iterator<Item = String>) -> Result<Task, String> {
    let (mut rounds, mut write, mut beside) = (301, false, Vec::new());
    while let Some(option) = arguments.next() {
        match option.as_str() {
            "--help" | "-h" => return Ok(Task::Help),
            "--rounds" => rounds = number(arguments.next())?,
            "--write" => write = true,
            "--beside" => {
                let build = named(arguments.next())?;
                not_twice(&build, &beside)?;
                beside.push(build);
            }
            "--profile" => return profile(&mut arguments),
            _ => return Err(format!("'{option}' is no option")),
        }
    }
    Ok(Task::Measure { rounds, write, beside })
}

/// A build by its name, which stands in the tables, and its file.
fn named(word: Option<String>) -> Result<Named, String> {
    let word = word.ok_or("--beside needs NAME=FILE")?;
    let (name, file) = word.split_once('=').ok_or(format!("'{word}' is not NAME=FILE"))?;
    let in_names = |c: char| c.is_ascii_alphanumeric() || "-_.".contains(c);
    if name.is_empty() || !name.chars().all(in_names) {
        return Err(format!("'{name}' is no name for a build: it has letters, digits, '-', '_' and '.' alone"));
    }
    if file.is_empty() {
        return Err(format!("'{word}' names no file"));
    }
    Ok(Named { name: name.into(), file: file.into() })
}

/// Refuses a name that another column has.
fn not_twice(build: &Named, others: &[Named]) -> Result<(), String> {
    let columns = Side::ALL.into_iter().map(Side::name).chain(["second", "copy_within"]);
    let mut taken = columns.map(String::from).chain(others.iter().map(|other| other.name.clone()));
    match taken.any(|name| name == build.name) {
        true => Err(format!("the name '{}' is taken", build.name)),
        false => Ok(()),
    }
}

fn profile(arguments: &mut impl Iterator<Item = String>) -> Result<Task, String> {
    let mut word = || arguments.next().ok_or("--profile needs a side, a call, a disk and a number".to_string());
    let (side, call, disk) = (word()?, word()?, word()?);
    let side = Side::ALL.into_iter().find(|s| s.name() == side).ok_or(format!("'{side}' is no side"))?;
    let call = Call::ALL.into_iter().find(|c| c.name() == call).ok_or(format!("'{call}' is no call"))?;
    Ok(Task::Profile { side, call, disk, calls: number(arguments.next())? })
}

fn number(word: Option<String>) -> Result<usize, String> {
    let word = word.ok_or("a number is missing")?;
    word.parse().ok().filter(|&n| n > 0).ok_or(format!("'{word}' is no number from 1 up"))
}

#[cfg(test)]
mod tests {
    use super::*;
    use crate::shape::Shape;

    fn parsed(line: &str) -> Result<Task, String> {
        parse(line.split_whitespace().map(String::from))
    }

    #[test]
    fn tasks() {
        assert_eq!(parsed(""), Ok(Task::Measure { rounds: 301, write: false, beside: vec![] }));
        assert_eq!(parsed("--write --rounds 5"), Ok(Task::Measure { rounds: 5, write: true, beside: vec![] }));
        let profile = Task::Profile { side: Side::Twin, call: Call::ReadPage, disk: "261-8".into(), calls: 9 };
        assert_eq!(parsed("--profile twin read-page 261-8 9"), Ok(profile));
        assert_eq!(parsed("--rounds 5 --help"), Ok(Task::Help));
    }

    #[test]
    fn the_help_names_every_disk_and_every_call() {
        let words: Vec<&str> = HELP.split(|c: char| c.is_whitespace() || ",;:".contains(c)).collect();
        for name in Shape::ALL.iter().map(|shape| shape.name).chain(Call::ALL.map(Call::name)) {
            assert!(words.contains(&name), "{name}");
        }
    }

    #[test]
    fn builds_beside() {
        let build = |name: &str, file: &str| Named { name: name.into(), file: file.into() };
        let beside = vec![build("w8", "old/w8.so"), build("v1.2-old_one", "a=b.so")];
        let task = Task::Measure { rounds: 5, write: false, beside };
        assert_eq!(parsed("--beside w8=old/w8.so --rounds 5 --beside v1.2-old_one=a=b.so"), Ok(task));
    }

    #[test]
    fn mistakes_in_builds() {
        let mistake = |line: &str| parsed(line).expect_err(line);
        assert_eq!(mistake("--beside"), "--beside needs NAME=FILE");
        assert_eq!(mistake("--beside old.so"), "'old.so' is not NAME=FILE");
        assert_eq!(mistake("--beside old="), "'old=' names no file");
        for name in ["", "a|b", "a/b", "ä"] {
            assert!(mistake(&format!("--beside {name}=old.so")).contains("is no name"), "{name}");
        }
        for name in ["proved", "twin", "model", "second", "proved-again"] {
            assert_eq!(mistake(&format!("--beside {name}=old.so")), format!("the name '{name}' is taken"));
        }
        assert_eq!(mistake("--beside old=a.so --beside old=b.so"), "the name 'old' is taken");
    }

    #[test]
    fn mistakes() {
        for line in [
            "--rounds",
            "--rounds 0",
            "--rounds x",
            "--profile twin",
            "--profile one free 261-8 1",
            "x",
            "--profile twin x 261-8 1",
        ] {
            assert!(parsed(line).is_err(), "{line}");
        }
    }
}

//! The arguments of the program.

use crate::long::LEAST;

pub const HELP: &str = "\
histories: runs the proved event disk manager beside a second implementation and the plain book

  histories random [--seed S] [--calls N] [--long]   random histories, on large disks too
  histories long [--seed S] [--long]                 long lists of calls, each on one disk
  histories small [--depth D]                        all histories of disks of 1 to 8 blocks
  histories damage [--seed S] [--count N]            damaged catalogues, buffers of wrong lengths
  histories stack                                    the stack that each exported call uses
  histories all [any of these options]               all of the above

Each is run in every version of the catalogue. Disks of more than 5,000 blocks are not compared whole after every call,
but by the blocks that the call touched, and whole at intervals. After every change each file and the free blocks have
to lie in the least number of pieces whose lengths are powers of two, which a search finds.

  --seed S    the number that fixes a run, 1 if not given
  --calls N   how many random calls at least, 200000 if not given; the calls on large disks are more in proportion
  --long      ten million random calls, and long lists of which one in each version has a million
  --depth D   how many adds, removes and replaces a list has at most; chosen for each disk if not given
  --count N   how many damaged catalogues, 200000 if not given
  --help      this text

It ends with 0 if nothing differed, with 1 if something did, and with 2 if the arguments are wrong.
";

/// What to run.
#[derive(Clone, Debug, PartialEq, Eq)]
pub enum Command {
    Help,
    Random,
    Long,
    Small,
    Damage,
    Stack,
    /// One call of the stack measurement, made in a process of its own: the name of the scene, the number of the
    /// version, and the bytes left.
    StackScene {
        scene: String,
        version: u16,
        left: usize,
    },
    All,
}

/// What the options say.
#[derive(Clone, Debug, PartialEq, Eq)]
pub struct Options {
    pub seed: u64,
    pub calls: u64,
    /// How many calls the longest list has at least.
    pub longest: u64,
    pub depth: Option<usize>,
    pub count: u64,
}

const NONE: &[&str] = &[];

/// The command and its options, or what is wrong with them.
pub fn parse(mut arguments: impl Iterator<Item = String>) -> Result<(Command, Options), String> {
    let mut options = Options { seed: 1, calls: 200_000, longest: LEAST, depth: None, count: 200_000 };
    let name = arguments.next().ok_or("a command is missing")?;
    let (command, allowed) = match name.as_str() {
        "--help" | "-h" | "help" => (Command::Help, NONE),
        "random" => (Command::Random, &["--seed", "--calls", "--long"][..]),
        "long" => (Command::Long, &["--seed", "--long"][..]),
        "small" => (Command::Small, &["--depth"][..]),
        "damage" => (Command::Damage, &["--seed", "--count"][..]),
        "stack" => (Command::Stack, NONE),
        "stack-scene" => {
            let scene = arguments.next().ok_or("a scene is missing")?;
            let version = number("the version", arguments.next())?;
            (Command::StackScene { scene, version, left: number("the bytes left", arguments.next())? }, NONE)
        }
        "all" => (Command::All, &["--seed", "--calls", "--long", "--depth", "--count"][..]),
        _ => return Err(format!("'{name}' is no command")),
    };
    while let Some(option) = arguments.next() {
        if option == "--help" {
            return Ok((Command::Help, options));
        }
        if !allowed.contains(&option.as_str()) {
            return Err(format!("'{option}' is no option of {name}"));
        }
        set(&mut options, &option, &mut arguments)?;
    }
    Ok((command, options))
}

/// Sets one option, with the value after it.
fn set(options: &mut Options, option: &str, values: &mut impl Iterator<Item = String>) -> Result<(), String> {
    match option {
        "--long" => (options.calls, options.longest) = (10_000_000, 1_000_000),
        "--seed" => options.seed = number(option, values.next())?,
        "--calls" => options.calls = number(option, values.next())?,
        "--count" => options.count = number(option, values.next())?,
        _ => options.depth = Some(number(option, values.next())?),
    }
    Ok(())
}

fn number<N: std::str::FromStr>(what: &str, value: Option<String>) -> Result<N, String> {
    let value = value.ok_or_else(|| format!("{what} needs a number"))?;
    value.parse().map_err(|_| format!("{what} needs a number, not '{value}'"))
}

#[cfg(test)]
mod tests {
    use super::*;

    fn parsed(words: &str) -> Result<(Command, Options), String> {
        parse(words.split_whitespace().map(String::from))
    }

    #[test]
    fn commands_and_options() {
        let (command, options) = parsed("random --seed 7 --calls 30").expect("these are right");
        assert_eq!((command, options.seed, options.calls), (Command::Random, 7, 30));
        assert_eq!(options.longest, 20_000);
        assert_eq!(parsed("all --long --depth 3 --count 5").map(|(_, o)| (o.calls, o.longest, o.depth, o.count)), {
            Ok((10_000_000, 1_000_000, Some(3), 5))
        });
        assert_eq!(parsed("long --seed 3 --long").map(|(command, o)| (command, o.seed)), Ok((Command::Long, 3)));
        assert_eq!(parsed("damage --help").map(|(command, _)| command), Ok(Command::Help));
        let scene = Command::StackScene { scene: "none".into(), version: 2, left: 64 };
        assert_eq!(parsed("stack-scene none 2 64").map(|(command, _)| command), Ok(scene));
    }

    #[test]
    fn wrong_arguments() {
        for words in [
            "",
            "rndom",
            "random --depth 3",
            "random --seed",
            "long --calls 3",
            "random --seed x",
            "small x",
            "stack --long",
            "stack-scene none 2",
        ] {
            assert!(parsed(words).is_err(), "{words}");
        }
    }
}

//! The help and the manual page tell of every command and option.

use crate::scratch::Scratch;
use evdisk_tool::command::COMMANDS;

const MANUAL: &str = include_str!("../../evdisk.1");

#[test]
fn the_help_names_every_command_and_every_status() {
    let scratch = Scratch::new();
    let help = scratch.does("--help");
    for command in &COMMANDS {
        assert!(help.contains(&format!("  {}\n", command.usage())), "{}", command.name);
    }
    for status in ["0 done", "1 refused", "2 wrong command line", "3 a file could not be read or written"] {
        assert!(help.contains(status), "{status}");
    }
    assert!(help.lines().all(|line| line.chars().count() <= 120));
    assert_eq!(scratch.does("-h"), help);
    let version = concat!("evdisk ", env!("CARGO_PKG_VERSION"), ", over the proved manager\n");
    assert_eq!(scratch.does("--version"), version);
}

#[test]
fn each_command_has_a_help_of_its_own() {
    let scratch = Scratch::new();
    for command in &COMMANDS {
        let help = scratch.does(&format!("{} none --help", command.name));
        assert!(help.starts_with(&format!("{}\n\n", command.usage())), "{help}");
        assert!(help.contains(command.long), "{help}");
    }
}

#[test]
fn the_limits_of_every_version_are_told() {
    let help = Scratch::new().does("format --help");
    for event_disk::Version { catalogue, most_blocks, .. } in event_disk::Version::ALL {
        let plain = MANUAL.replace(',', "");
        assert!(help.contains(&format!("{catalogue} bytes")) && plain.contains(&format!(" {catalogue} ")));
        assert!(help.contains(&format!("{most_blocks}")) && plain.contains(&format!("1 to {most_blocks} ")));
    }
}

#[test]
fn the_manual_page_names_every_command_and_option() {
    for command in &COMMANDS {
        assert!(MANUAL.contains(&format!("\n\\fBevdisk {}\\fP ", command.name)), "{}", command.name);
        let options = command.with_value().map(|(option, _)| option).chain(command.flags.iter().copied());
        for option in options {
            assert!(MANUAL.contains(&option.replace('-', "\\-")), "{} {option}", command.name);
        }
    }
    for refusal in event_disk::Refusal::ALL {
        assert!(MANUAL.contains(&format!(".IP {}\n", refusal.number())), "refusal {}", refusal.number());
    }
}

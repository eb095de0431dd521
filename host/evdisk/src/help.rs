//! The help of the tool and of each command.

use crate::command::{Command, COMMANDS};

/// What `evdisk --version` says: also whether the manager below the tool is the proved one.
pub fn version() -> String {
    let below = if event_disk::PROVED { "the proved manager" } else { "the plain twin, for a first look: NOT PROVED" };
    format!("evdisk {}, over {below}\n", env!("CARGO_PKG_VERSION"))
}

pub const FORMAT: &str = "\
A new image gets C blocks of 512 bytes, all zero; C is 1 to 1048576. Up to 4096 blocks the catalogue is the small one of
4096 bytes, above, or with --large, the large one of 16384 bytes. All other commands go by the catalogue's length.
An image that is there is only formatted with --force: its blocks keep their bytes, --blocks may be left out, and all
events on it are given up.";

pub const ADD: &str = "\
FILE is one or more records of 512 bytes. Says in how many pieces the event lies, how many breaks it has and where it is
read from, as list does: (first block,lengths), in page order.
If there is no space it names the event whose removal would make room with the fewest copied blocks.";

pub const REMOVE: &str = "\
Says how many blocks were copied to join free space, and the contract's limit for this removal: the sum of the place
values at which free blocks plus the event's blocks carry in binary. A line with both goes to the shift log. Only blocks
that events hold are copied. Two free sections that are the halves of a longer one are joined first, without a copy:
that mostly saves copies, but not at every removal, and the limit is what holds. With --dry-run it only says what the
removal would copy, and nothing is changed.";

pub const REPLACE: &str = "\
FILE is one or more records of 512 bytes, not necessarily as many as the old event has. Byte 6 of a record, counted from
0, is its quality letter, ranked R, D, Q, M, lowest first: that of the first record in FILE must rank above that of the
first record stored. Any other stored letter ranks below all. The disk is then as if the old event were removed and the
new one added. Says what the removal copied and its limit, as remove does, and where the new event lies, as add does.
The shift log gets a line for the removal, with the old event's blocks.";

pub const READ: &str = "\
Reads N pages from page P on; pages count from 0. Without --first it starts at page 0, without --pages it goes on to
the event's end. With --output the pages go to FILE, which must not be there yet.";

pub const LIST: &str = "\
The pieces of an event stand in page order. Those of which each starts right after the one before it are read without a
seek and stand in one bracket: (0,4+2+1) is a read from block 0 over pieces of 4, 2 and 1 blocks. From one bracket to
the next the drive seeks; that is a break. Free pieces are not read and have a bracket each, by first block. Neither an
event nor the free blocks could lie in fewer pieces whose lengths are powers of two.";

pub const BREAKS: &str = "\
There is a break where the drive has to seek when the pages are read in order. None is counted where a piece starts
right after the one before it in page order. Says the contract's limit too: the ones of the event's blocks in binary,
less one; no division of these blocks into powers of two has fewer pieces than they have ones. Reads the catalogue
only.";

pub const FREE: &str = "Reads the catalogue only.";

pub const WHICH: &str = "\
For each event whose removal alone is enough it gives the event's blocks, the blocks that the removal would copy and the
contract's limit: fewest copies first, equal counts by lower id. Says so if there is room already, or if no single
removal is enough. FILE is one or more records of 512 bytes. Reads the catalogue only.";

pub const CHECK: &str = "\
Says the number of blocks if the catalogue is sound and the image as long as it says; is refused otherwise.";

pub const MAP: &str = "\
Draws a letter or digit for each block and a dot for a free one, W to a row (64 if not given), and a legend. Above 4096
blocks each letter is 2, 4, 8 or more blocks, as the legend says, and + where they are not all alike. On a terminal the
letters have colours, unless NO_COLOR is set. With --svg the drawing goes to FILE as SVG instead, with a rectangle for
each read of an event, in which dashed lines part the pieces; FILE must not be there yet, or is - for standard output.";

pub const LOG: &str = "\
Shows for each removal its date, the event's id and blocks, the blocks that were copied and the contract's limit. A
replacement has the line of its removal: the blocks are those of the old event.";

const REST: &str = "
IMAGE holds the disk's blocks. Beside it stand IMAGE.cat, the catalogue; IMAGE.log, the shift log; and IMAGE.redo, only
while a removal or replacement is under way. Keep them together. ID is a number from 1 to 65535.

To a disk that is there each command is done whole or not at all, even if it is cut off: an add writes to free blocks
and then replaces the catalogue in one step; a removal or replacement is first written down whole in IMAGE.redo, and a
command that finds that file completes it. Not covered: a drive that says that bytes are written when they are not, and
new files that a format, read or map was making. Two commands at once on one disk are kept apart by a lock.

Status: 0 done; 1 refused, with 'refused' and the number; 2 wrong command line; 3 a file could not be read or written.
--json: the answer as JSON. evdisk COMMAND --help tells more about a command, and so does the manual page evdisk(1).
";

/// The help of the tool.
pub fn general() -> String {
    let mut text = String::from("evdisk: event disks of volcano stations, kept in files\n\n");
    for command in &COMMANDS {
        text += &format!("  {}\n      {}\n", command.usage(), command.short);
    }
    text + REST
}

/// The help of a command.
pub fn of(command: &Command) -> String {
    format!("{}\n\n{}.\n{}\n", command.usage(), capital(command.short), command.long)
}

/// The text with a capital at its start.
fn capital(text: &str) -> String {
    let (first, rest) = text.split_at(1);
    first.to_uppercase() + rest
}

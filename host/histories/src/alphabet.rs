//! The calls of which all lists are made on small disks.

use model::BLOCK;

use crate::call::Call;
use crate::states::Line;

/// As many calls as there are new states.
const ANY: usize = usize::MAX;
/// Each quality letter, and a byte that is none.
pub const LETTERS: &[u8] = b"?RDQM";

/// A disk, and the calls of its lists.
pub struct Alphabet {
    pub blocks: usize,
    /// How many calls a list has at most.
    pub depth: usize,
    /// The letters of adds, and of replaces anywhere in a list.
    added: &'static [u8],
    replaced: &'static [u8],
    /// The letters of replaces at the end of a list.
    last: &'static [u8],
}

/// First lists with replaces anywhere, on the smallest disks with all letters. Then longer lists of adds and removes,
/// each of them with every replace at its end. What a replace leaves is, but for the letter, what a remove and an add
/// leave, so that every layout is among these too.
pub const ALPHABETS: [Alphabet; 14] = [
    Alphabet { blocks: 1, depth: ANY, added: LETTERS, replaced: LETTERS, last: b"" },
    Alphabet { blocks: 2, depth: ANY, added: LETTERS, replaced: LETTERS, last: b"" },
    Alphabet { blocks: 3, depth: ANY, added: b"R", replaced: b"DM", last: b"" },
    Alphabet { blocks: 4, depth: 5, added: b"R", replaced: b"Q", last: b"" },
    Alphabet { blocks: 5, depth: 4, added: b"R", replaced: b"Q", last: b"" },
    Alphabet { blocks: 6, depth: 3, added: b"R", replaced: b"Q", last: b"" },
    Alphabet { blocks: 7, depth: 3, added: b"R", replaced: b"Q", last: b"" },
    Alphabet { blocks: 8, depth: 3, added: b"R", replaced: b"Q", last: b"" },
    Alphabet { blocks: 3, depth: ANY, added: b"D", replaced: b"", last: b"Q" },
    Alphabet { blocks: 4, depth: ANY, added: b"D", replaced: b"", last: b"Q" },
    Alphabet { blocks: 5, depth: ANY, added: b"D", replaced: b"", last: b"Q" },
    Alphabet { blocks: 6, depth: 7, added: b"D", replaced: b"", last: b"Q" },
    Alphabet { blocks: 7, depth: 6, added: b"D", replaced: b"", last: b"Q" },
    Alphabet { blocks: 8, depth: 5, added: b"D", replaced: b"", last: b"Q" },
];

impl Alphabet {
    /// The calls on one id after which lists go on, with the line that each leaves.
    pub fn calls(&self, id: u16) -> Vec<(Call, Line)> {
        let mut calls = vec![(Call::Remove { id }, (0, 0))];
        for n in 1..=self.blocks + 1 {
            let length = n * BLOCK;
            calls.extend(self.added.iter().map(|&letter| (Call::Add { id, length, letter }, (n, letter))));
            calls.extend(self.replaced.iter().map(|&letter| (Call::Replace { id, length, letter }, (n, letter))));
        }
        calls
    }

    /// The calls that end a list, on an id with a file of so many blocks, or with none.
    pub fn last_calls(&self, id: u16, blocks: usize) -> Vec<Call> {
        let lengths = if blocks > 0 { 1..=self.blocks } else { 1..=1 };
        let of_letter = |&letter: &u8| lengths.clone().map(move |n| Call::Replace { id, length: n * BLOCK, letter });
        self.last.iter().flat_map(of_letter).collect()
    }

    /// Where its replaces are.
    pub fn told(&self) -> &'static str {
        if self.replaced.is_empty() {
            "replaces last"
        } else {
            "replaces anywhere"
        }
    }
}

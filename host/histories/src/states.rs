//! The states of small disks: all bytes of catalogue and disk, and the lines of the book.

use std::collections::{HashMap, HashSet};

use model::BLOCK;

use crate::both::Difference;
use crate::history::History;

/// The ids of all files.
pub const IDS: [u16; 3] = [1, 2, 3];

/// Catalogue and disk of a state: the catalogue without its zero bytes at the end, and a name for each block's bytes.
type Key = (Vec<u8>, Vec<u16>);

/// The line of an id: its pages, 0 if it has none, and its quality letter.
pub type Line = (usize, u8);

/// A state, and the lines in the book of any list that leads to it.
pub struct State {
    key: Key,
    pub lines: [Line; IDS.len()],
}

/// The states that were met, and the names of blocks.
#[derive(Default)]
pub struct States {
    names: HashMap<Vec<u8>, u16>,
    blocks_named: Vec<Vec<u8>>,
    met: HashSet<Key>,
}

impl States {
    /// How many states were met.
    pub fn count(&self) -> usize {
        self.met.len()
    }

    /// The state that a history is in, if it was not met before.
    pub fn meet(&mut self, history: &History, lines: [Line; IDS.len()]) -> Option<State> {
        let key = self.key(history);
        self.met.insert(key.clone()).then_some(State { key, lines })
    }

    fn key(&mut self, history: &History) -> Key {
        let cat = history.both.catalogue();
        let used = cat.iter().rposition(|&byte| byte != 0).map_or(0, |last| last + 1);
        let mut disk = Vec::new();
        for block in history.both.disk(history.blocks).chunks_exact(BLOCK) {
            let name = *self.names.entry(block.to_vec()).or_insert_with(|| {
                self.blocks_named.push(block.to_vec());
                self.blocks_named.len() as u16 - 1
            });
            disk.push(name);
        }
        (cat[..used].to_vec(), disk)
    }

    /// Lets a history go back to a state, with the book of a list that leads to it.
    pub fn load(&self, state: &State, history: &mut History) -> Result<(), Difference> {
        let mut cat = state.key.0.clone();
        cat.resize(history.right().cat, 0);
        let blocks = state.key.1.iter().flat_map(|&name| &self.blocks_named[usize::from(name)]);
        let disk: Vec<u8> = blocks.copied().collect();
        let lines = IDS.into_iter().zip(state.lines).filter(|(_, (n, _))| *n > 0);
        history.return_to(&cat, &disk, lines.map(|(id, (n, letter))| (id, n, letter)))
    }
}

//! The map from each block of a disk to its owner, and the catalogue derived from it.

use std::collections::BTreeMap;

use crate::{Catalogue, Entry, Pair, Version};

/// What a block is to the catalogue: a part of a free piece of some height, or a page of a file.
#[derive(Clone, Copy, Debug, PartialEq, Eq)]
pub enum Owner {
    Free { height: u8 },
    Held { id: u16, page: u32 },
}

/// The owner of each block, the n of each id, and the version in which all this is written.
#[derive(Clone, Debug, PartialEq, Eq)]
pub struct BlockMap {
    pub(crate) version: Version,
    pub(crate) owners: Vec<Owner>,
    pub(crate) sizes: BTreeMap<u16, u32>,
}

/// The height of the piece that has a page, in a file of n blocks: pages fill the ones of n from the highest down.
pub(crate) fn height_of_page(n: u32, page: u32) -> u8 {
    let (mut ones, mut page) = (n, page);
    loop {
        let height = ones.checked_ilog2().expect("a file has fewer pages than this one's number");
        let length = 1 << height;
        if page < length {
            return height as u8;
        }
        ones -= length;
        page -= length;
    }
}

impl BlockMap {
    /// The map of a fresh disk: the ones of C, longest first from block 0.
    pub fn fresh(version: Version, blocks: u32) -> BlockMap {
        let owners = (0..blocks).map(|block| Owner::Free { height: height_of_page(blocks, block) }).collect();
        BlockMap { version, owners, sizes: BTreeMap::new() }
    }

    /// The map that a sound catalogue describes.
    pub fn of(catalogue: &Catalogue) -> BlockMap {
        let mut owners = vec![Owner::Free { height: 0 }; catalogue.blocks as usize];
        for pair in &catalogue.free {
            let height = pair.length.trailing_zeros() as u8;
            owners[pair.blocks()].fill(Owner::Free { height });
        }
        for entry in &catalogue.entries {
            hold(&mut owners, entry);
        }
        let sizes = catalogue.entries.iter().map(|e| (e.id, e.blocks)).collect();
        BlockMap { version: catalogue.version, owners, sizes }
    }

    /// The first blocks of the free pieces of a height, rising.
    pub fn free_pieces(&self, height: u8) -> impl Iterator<Item = usize> + '_ {
        (0..self.owners.len()).step_by(1 << height).filter(move |&block| self.owners[block] == Owner::Free { height })
    }

    /// f: C less the sum of all n.
    pub fn free_blocks(&self) -> usize {
        self.owners.len() - self.sizes.values().map(|&n| n as usize).sum::<usize>()
    }

    /// The block of each page of a file in page order.
    pub fn pages(&self, id: u16) -> Vec<usize> {
        let mut pages = vec![0; self.sizes.get(&id).map_or(0, |&n| n as usize)];
        for (block, owner) in self.owners.iter().enumerate() {
            match *owner {
                Owner::Held { id: held, page } if held == id => pages[page as usize] = block,
                _ => {}
            }
        }
        pages
    }

    /// The breaks of a file, as the paper has them: there is one at each page but the first whose block is not the one
    /// right after that of the page before it.
    pub fn breaks(&self, id: u16) -> usize {
        let pages = self.pages(id);
        (1..pages.len()).filter(|&page| pages[page] != pages[page - 1] + 1).count()
    }

    /// The height of the piece around a block.
    fn height_around(&self, block: usize) -> u8 {
        match self.owners[block] {
            Owner::Free { height } => height,
            Owner::Held { id, page } => height_of_page(self.sizes[&id], page),
        }
    }

    /// The catalogue of this map: a walk from piece to piece meets the pairs of each owner by rising first block.
    pub fn catalogue(&self) -> Catalogue {
        let mut entries: BTreeMap<u16, Entry> =
            self.sizes.iter().map(|(&id, &blocks)| (id, Entry { id, blocks, pairs: Vec::new() })).collect();
        let mut free = Vec::new();
        let mut block = 0;
        while block < self.owners.len() {
            let length = 1 << self.height_around(block);
            let pair = Pair { first: block as u32, length };
            match self.owners[block] {
                Owner::Free { .. } => free.push(pair),
                Owner::Held { id, .. } => entries.get_mut(&id).expect("a held block has a size").pairs.push(pair),
            }
            block += length as usize;
        }
        let entries = entries.into_values().collect();
        Catalogue { version: self.version, blocks: self.owners.len() as u32, entries, free }
    }
}

/// Gives the blocks of an entry to its file: pages fill the longest pair first.
fn hold(owners: &mut [Owner], entry: &Entry) {
    let mut longest_first = entry.pairs.clone();
    longest_first.sort_by_key(|pair| std::cmp::Reverse(pair.length));
    let mut page = 0;
    for pair in longest_first {
        for owner in &mut owners[pair.blocks()] {
            *owner = Owner::Held { id: entry.id, page };
            page += 1;
        }
    }
}

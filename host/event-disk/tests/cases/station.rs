//! A disk with its catalogue for the tests, and catalogues laid down by hand.

use event_disk::{Refusal, Version, BLOCK};

pub type Pairs = &'static [(u32, u32)];
pub type Files = &'static [(u16, u32, Pairs)];

/// The bytes of a catalogue, field by field.
pub fn bytes(version: Version, blocks: u32, files: Files, free: Pairs) -> Vec<u8> {
    let short = |number: u16| number.to_be_bytes().to_vec();
    let field = |number: u32| number.to_be_bytes()[4 - version.field..].to_vec();
    let pairs = |pairs: Pairs| pairs.iter().flat_map(|(first, length)| [field(*first), field(*length)]).collect();
    let mut fields = vec![short(version.number), field(blocks), short(files.len() as u16)];
    for (id, n, held) in files {
        let held: Vec<_> = pairs(held);
        fields.extend([short(*id), field(*n)].into_iter().chain(held));
    }
    fields.extend::<Vec<_>>(pairs(free));
    let mut bytes = fields.concat();
    bytes.resize(version.catalogue, 0);
    bytes
}

/// The block that holds a page of a file.
pub fn page(id: u16, number: usize) -> Vec<u8> {
    vec![(16 * id as usize + number) as u8; BLOCK]
}

/// A disk with its catalogue.
pub struct Station {
    pub version: Version,
    pub cat: Vec<u8>,
    pub disk: Vec<u8>,
}

impl Station {
    pub fn fresh(version: Version, blocks: u32) -> Station {
        let (mut cat, disk) = (vec![7; version.catalogue], vec![255; BLOCK * blocks as usize]);
        assert_eq!(event_disk::format(&mut cat, &disk), Ok(u64::from(blocks)));
        Station { version, cat, disk }
    }

    pub fn add(&mut self, id: u16, pages: usize) -> Result<u64, Refusal> {
        let content: Vec<u8> = (0..pages).flat_map(|number| page(id, number)).collect();
        event_disk::add(&mut self.cat, &mut self.disk, id, &content)
    }

    pub fn remove(&mut self, id: u16) -> Result<u64, Refusal> {
        event_disk::remove(&mut self.cat, &mut self.disk, id)
    }

    /// The catalogue is this one, and each of these blocks holds this page of this file.
    pub fn is(&self, blocks: u32, files: Files, free: Pairs, pages: &[(usize, u16, usize)]) {
        assert_eq!(self.cat, bytes(self.version, blocks, files, free));
        for &(block, id, number) in pages {
            assert_eq!(self.disk[block * BLOCK..][..BLOCK], page(id, number), "block {block}");
        }
        for &(id, n, _) in files {
            let mut out = vec![0; BLOCK * n as usize];
            assert_eq!(event_disk::read(&self.cat, &self.disk, id, 0, &mut out), Ok(u64::from(n)));
            assert!(out.chunks(BLOCK).enumerate().all(|(number, bytes)| bytes == page(id, number)), "file {id}");
        }
    }
}

//! A disk and its catalogue for the tests, with bytes laid down by hand.

use model::{Answer, Version, BLOCK};

/// A pair as the scope document writes it: first block and length.
pub type Pairs<'a> = &'a [(u32, u32)];

/// A file by hand: its id, its n, its pairs.
pub type File<'a> = (u16, u32, Pairs<'a>);

/// Runs a test in each version of the catalogue. A test that fails shows the version in its output.
pub fn in_each_version(test: impl Fn(Version)) {
    for version in Version::ALL {
        println!("version {}", version.number);
        test(version);
    }
}

/// The bytes of a catalogue, field by field: the header, each file, then the free pairs.
pub fn bytes(version: Version, blocks: u32, files: &[File], free: Pairs) -> Vec<u8> {
    let wide = |number: u32| number.to_be_bytes()[4 - version.field..].to_vec();
    let both = |&(first, length): &(u32, u32)| [wide(first), wide(length)].concat();
    let mut fields = vec![version.number.to_be_bytes().to_vec(), wide(blocks)];
    fields.push((files.len() as u16).to_be_bytes().to_vec());
    for (id, n, pairs) in files {
        fields.extend([id.to_be_bytes().to_vec(), wide(*n)]);
        fields.extend(pairs.iter().map(both));
    }
    fields.extend(free.iter().map(both));
    let mut bytes = fields.concat();
    bytes.resize(version.catalogue, 0);
    bytes
}

/// The block that holds this page of this file.
pub fn page(id: u16, number: u32) -> Vec<u8> {
    [u32::from(id).to_be_bytes(), number.to_be_bytes()].concat().repeat(BLOCK / 8)
}

/// The content of a file: its pages one after the other.
pub fn content(id: u16, pages: u32) -> Vec<u8> {
    (0..pages).flat_map(|number| page(id, number)).collect()
}

/// The content of a file with a quality letter. At its end each page has it too, so that no page is one of another
/// letter.
pub fn reviewed(id: u16, letter: u8, pages: u32) -> Vec<u8> {
    let mut content = content(id, pages);
    content.chunks_mut(BLOCK).for_each(|page| page[BLOCK - 1] = letter);
    content[6] = letter;
    content
}

/// A disk with its catalogue.
pub struct Station {
    pub version: Version,
    pub cat: Vec<u8>,
    pub disk: Vec<u8>,
}

impl Station {
    /// A formatted disk, whose blocks hold other bytes than any page.
    pub fn fresh(version: Version, blocks: u32) -> Station {
        let cat = vec![0xAB; version.catalogue];
        let mut station = Station { version, cat, disk: vec![0xCD; BLOCK * blocks as usize] };
        assert_eq!(model::format(&mut station.cat, &station.disk), Ok(u64::from(blocks)));
        station
    }

    /// A disk with a catalogue by hand; each block of a file holds the page that is there in page order.
    pub fn laid_out(version: Version, blocks: u32, files: &[File], free: Pairs) -> Station {
        let cat = bytes(version, blocks, files, free);
        let mut station = Station { version, cat, disk: vec![0xCD; BLOCK * blocks as usize] };
        for (id, _, pairs) in files {
            let mut longest_first = pairs.to_vec();
            longest_first.sort_by_key(|&(_, length)| std::cmp::Reverse(length));
            let blocks = longest_first.iter().flat_map(|&(first, length)| first..first + length);
            for (number, block) in blocks.enumerate() {
                station.block_mut(block).copy_from_slice(&page(*id, number as u32));
            }
        }
        station
    }

    /// The catalogue is this one, in the version of the station.
    #[track_caller]
    pub fn lists(&self, blocks: u32, files: &[File], free: Pairs) {
        assert_eq!(self.cat, bytes(self.version, blocks, files, free));
    }

    pub fn add(&mut self, id: u16, pages: u32) -> Answer {
        model::add(&mut self.cat, &mut self.disk, id, &content(id, pages))
    }

    pub fn remove(&mut self, id: u16) -> Answer {
        model::remove(&mut self.cat, &mut self.disk, id)
    }

    /// Replaces a file. A refusal changes no byte.
    pub fn replace(&mut self, id: u16, content: &[u8]) -> Answer {
        let before = (self.cat.clone(), self.disk.clone());
        let answer = model::replace(&mut self.cat, &mut self.disk, id, content);
        assert!(answer.is_ok() || (&self.cat, &self.disk) == (&before.0, &before.1), "a refused call changed a byte");
        answer
    }

    /// Whether a read of the whole file gives its pages in order.
    pub fn reads_back(&self, id: u16, pages: u32) -> bool {
        let mut out = vec![0; BLOCK * pages as usize];
        model::read(&self.cat, &self.disk, id, 0, &mut out) == Ok(u64::from(pages)) && out == content(id, pages)
    }

    pub fn block(&self, number: u32) -> &[u8] {
        &self.disk[BLOCK * number as usize..][..BLOCK]
    }

    fn block_mut(&mut self, number: u32) -> &mut [u8] {
        &mut self.disk[BLOCK * number as usize..][..BLOCK]
    }
}

//! A history of adds and removals, for tests that look at each catalogue of it.

use event_disk::{Version, BLOCK};

/// Numbers that are the same in every run.
struct Numbers(u64);

impl Numbers {
    fn below(&mut self, end: usize) -> usize {
        self.0 = self.0.wrapping_mul(6_364_136_223_846_793_005).wrapping_add(1_442_695_040_888_963_407);
        (self.0 >> 33) as usize % end
    }
}

/// Adds a file, or removes one if that is refused, 150 times on a disk of so many blocks, and looks at the catalogue
/// each time. A file has up to an eighth of the blocks.
pub fn run(version: Version, blocks: usize, mut look: impl FnMut(&[u8])) {
    let numbers = &mut Numbers(blocks as u64);
    let (mut cat, mut disk) = (vec![0; version.catalogue], vec![0; blocks * BLOCK]);
    event_disk::format(&mut cat, &disk).expect("a disk");
    for _ in 0..150 {
        let id = 1 + numbers.below(20) as u16;
        let content = vec![0; BLOCK * (1 + numbers.below(blocks.div_ceil(8)))];
        if event_disk::add(&mut cat, &mut disk, id, &content).is_err() {
            let _ = event_disk::remove(&mut cat, &mut disk, id);
        }
        look(&cat);
    }
}

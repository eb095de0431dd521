//! A disk with its files, as it is after some use.

use crate::numbers::Numbers;
use crate::shape::Shape;
use crate::sides::{Call, Lent, Letter};
use model::BlockMap;
use twin::{BLOCK, MOST_FILES};

/// What is told of a scene.
#[derive(Clone, Copy, Debug)]
pub struct Facts {
    pub shape: Shape,
    /// The blocks that the removal of `id` copies: no other file's removal copies more.
    pub copied: u64,
    pub id: u16,
}

/// The place of the quality letter in a page.
const LETTER: usize = 6;
/// The letter of contents, and that of the file which is replaced: a lower one.
const REVIEWED: u8 = b'M';
const RAW: u8 = b'D';

/// The buffers of all calls. The disk is the only one of its size: calls are made on it one after another, and its
/// bytes are not put back, since no call goes by them but a replacement by the letter of the stored first page.
pub struct Scene {
    pub facts: Facts,
    /// The catalogue with the file of the id, and without.
    with: Vec<u8>,
    without: Vec<u8>,
    pub disk: Vec<u8>,
    /// The place of the letter of the file of the id, by the catalogue with it.
    letter: usize,
    content: Vec<u8>,
    out: Vec<u8>,
    /// One block more than is free, so that the removal of each file is listed.
    wanted: u64,
    list: Vec<u16>,
}

impl Scene {
    /// The scene after many calls.
    pub fn used(shape: Shape) -> Scene {
        let (mut with, mut disk) = (vec![0; shape.version.catalogue], vec![0; shape.blocks * BLOCK]);
        twin::format(&mut with, &disk).expect("the disk is one of the version");
        let content = content(shape.file_blocks);
        for place in 0..shape.files {
            twin::add(&mut with, &mut disk, id_at(place), &content).expect("all files fit");
        }
        use_disk(&mut with, &mut disk, shape.files, &content);
        let (id, copied) = most_copied(&with, &disk, shape.files);
        let mut without = with.clone();
        assert_eq!(twin::remove(&mut without, &mut disk, id), Ok(copied));
        let letter = first_block(&with, id) * BLOCK + LETTER;
        disk[letter] = RAW;
        let out = vec![0; content.len()];
        let wanted = twin::free(&with).expect("the catalogue is sound") + 1;
        let list = vec![0; MOST_FILES];
        Scene { facts: Facts { shape, copied, id }, with, without, disk, letter, content, out, wanted, list }
    }

    /// The catalogue that a call starts from, and its other buffers. An add puts the file of the id back, which is
    /// missing in its catalogue.
    pub fn lend(&mut self, call: Call) -> (&[u8], Lent<'_>) {
        let start = if call == Call::Add { &self.without } else { &self.with };
        let out = if call == Call::ReadPage { &mut self.out[..BLOCK] } else { &mut self.out[..] };
        let raw = (call == Call::Replace).then_some(Letter { place: self.letter, letter: RAW });
        let (wanted, list) = (self.wanted, &mut self.list[..]);
        (start, Lent { disk: &mut self.disk, raw, content: &self.content, out, id: self.facts.id, wanted, list })
    }
}

/// The block of a file's first page.
fn first_block(cat: &[u8], id: u16) -> usize {
    let catalogue = model::sound(cat).expect("the catalogue is sound");
    BlockMap::of(&catalogue).pages(id)[0]
}

/// The id of a file that is on the disk only for a while: below all others.
const PASSING_ID: u16 = 1;

/// The id of the file at a place.
fn id_at(place: usize) -> u16 {
    7 * place as u16 + 3
}

/// Pages that differ from each other, of which the first has a quality letter.
fn content(pages: usize) -> Vec<u8> {
    let mut numbers = Numbers(pages as u64);
    let mut content: Vec<u8> = (0..pages * BLOCK).map(|_| numbers.next() as u8).collect();
    content[LETTER] = REVIEWED;
    content
}

/// Takes two files out and puts them back, with a file of another length there in between, so that pieces get mixed.
fn use_disk(cat: &mut [u8], disk: &mut [u8], files: usize, content: &[u8]) {
    let mut numbers = Numbers(files as u64);
    let free = twin::free(cat).expect("the catalogue is sound") as usize;
    let passing = vec![0; free * BLOCK];
    for _ in 0..8 * files {
        let place = numbers.below(files);
        let (one, other) = (id_at(place), id_at((place + 1 + numbers.below(files - 1)) % files));
        let pages = 1 + numbers.below(free);
        twin::remove(cat, disk, one).expect("it is there");
        twin::remove(cat, disk, other).expect("it is there");
        twin::add(cat, disk, PASSING_ID, &passing[..pages * BLOCK]).expect("it fits");
        twin::add(cat, disk, other, content).expect("it fits again");
        twin::remove(cat, disk, PASSING_ID).expect("it is there");
        twin::add(cat, disk, one, content).expect("it fits again");
    }
}

/// The file whose removal copies most blocks, and how many. The second implementation tells it without a copy.
fn most_copied(cat: &[u8], disk: &[u8], files: usize) -> (u16, u64) {
    let copied = |id| model::removal_copies(cat, disk, id).expect("the file is there").len() as u64;
    let all = (0..files).map(|place| (id_at(place), copied(id_at(place))));
    all.reduce(|most, next| if next.1 > most.1 { next } else { most }).expect("there is a file")
}

#[cfg(test)]
mod tests {
    use super::*;
    use crate::sides::Side;
    use crate::timing::Batch;

    /// A batch asks that its calls are answered: a replacement finds a lower letter every time, whatever was there
    /// before.
    #[test]
    fn every_call_of_a_batch_is_answered() {
        for name in ["261-8", "261-8-large", "261-64"] {
            let mut scene = Scene::used(Shape::named(name).expect("it is a disk"));
            for call in [Call::Replace, Call::Remove, Call::Replace].into_iter().chain(Call::ALL) {
                let mut batch = Batch::new(&mut scene, call);
                assert!(Side::ALL.into_iter().all(|side| batch.time(side) >= 0.0));
            }
        }
    }

    /// The list has every file, those with fewest copies first, and the one that is removed is among the last of them.
    #[test]
    fn all_files_are_listed() {
        for name in ["261-8", "261-8-large", "261-64", "4095-64"] {
            let mut scene = Scene::used(Shape::named(name).expect("it is a disk"));
            let files = scene.facts.shape.files;
            let (start, lent) = scene.lend(Call::Which);
            assert_eq!(twin::which(start, lent.wanted, lent.list), Ok(files as u64), "{name}");
            let copies = |id: &u16| model::removal_copies(start, lent.disk, *id).expect("it is there").len() as u64;
            let copied: Vec<u64> = lent.list[..files].iter().map(copies).collect();
            assert!(copied.is_sorted() && copied.last() == Some(&scene.facts.copied), "{name}: {copied:?}");
        }
    }

    /// The replaced file has the raw letter on the disk, and what replaces it the reviewed one.
    #[test]
    fn a_replacement_goes_by_the_letter() {
        let mut scene = Scene::used(Shape::named("261-8").expect("it is a disk"));
        let (start, lent) = scene.lend(Call::Replace);
        let mut cat = start.to_vec();
        assert_eq!(twin::replace(&mut cat, lent.disk, lent.id, lent.content), Ok(scene.facts.copied));
        let (_, lent) = scene.lend(Call::Replace);
        assert_eq!(twin::replace(&mut cat, lent.disk, lent.id, lent.content), Err(13), "it is there already");
    }
}

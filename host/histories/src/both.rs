//! The proved manager and the second implementation, given the same calls, on buffers of their own.

use model::{Answer, Entry, Version, BLOCK};

use crate::apart::Apart;
use crate::before::Before;
use crate::call::{Call, Lent};
use crate::guarded::{compare, compare_from};
use crate::merges::Merges;
use crate::numbers::Numbers;
use crate::sides::Side;
use crate::touched::Touched;

/// How the two, or a call and the book, differ.
pub type Difference = String;

/// Both implementations, with equal bytes before and after every call.
pub struct Both {
    pub version: Version,
    proved: Side,
    second: Side,
    before: Before,
    /// What the last call merged if it was answered, by the second implementation's account.
    merges: Merges,
    /// Where only a part of the disks is compared after a call, that part.
    touched: Option<Touched>,
}

impl Both {
    /// Both with buffers for at most so many blocks; all bytes are compared after every call.
    pub fn new(version: Version, most_blocks: usize) -> Both {
        let (proved, second) = (Side::new(most_blocks), Side::new(most_blocks));
        Both { version, proved, second, before: Default::default(), merges: Default::default(), touched: None }
    }

    /// The same, but of the disks only the blocks of `Touched` are compared after a call.
    pub fn in_parts(version: Version, most_blocks: usize) -> Both {
        Both { touched: Some(Touched::new(most_blocks)), ..Both::new(version, most_blocks) }
    }

    /// Fills the disks with any bytes.
    pub fn fill_disk(&mut self, blocks: usize, numbers: &mut Numbers) {
        self.before.disk.forget();
        let length = blocks * BLOCK;
        numbers.fill(self.proved.disk.lent_mut(length));
        self.second.disk.lent_mut(length).copy_from_slice(self.proved.disk.lent(length));
    }

    /// Lets both have these bytes at the start of their catalogue.
    pub fn set_catalogue(&mut self, bytes: &[u8]) {
        self.before.cat.forget();
        for side in [&mut self.proved, &mut self.second] {
            side.cat.lent_mut(bytes.len()).copy_from_slice(bytes);
        }
    }

    /// Lets both have these bytes at the start of their disk.
    pub fn set_disk(&mut self, bytes: &[u8]) {
        self.before.disk.forget();
        for side in [&mut self.proved, &mut self.second] {
            side.disk.lent_mut(bytes.len()).copy_from_slice(bytes);
        }
    }

    /// The catalogue of the proved manager.
    pub fn catalogue(&self) -> &[u8] {
        self.proved.cat.lent(self.version.catalogue)
    }

    /// The first blocks of the disk of the proved manager.
    pub fn disk(&self, blocks: usize) -> &[u8] {
        self.proved.disk.lent(blocks * BLOCK)
    }

    /// The output of the last read of the proved manager.
    pub fn output(&self, length: usize) -> &[u8] {
        self.proved.out.lent(length)
    }

    /// The list of the last call of which of the proved manager.
    pub fn list(&self, places: usize) -> &[u16] {
        self.proved.list.lent(places)
    }

    /// The pieces of a file less one, by the catalogue of the proved manager.
    pub fn most_breaks(&self, id: u16) -> u64 {
        let catalogue = model::sound(self.catalogue());
        let entry = catalogue.as_ref().and_then(|catalogue| catalogue.entry(id));
        entry.map_or(0, |entry| entry.pairs.len() as u64 - 1)
    }

    /// What the last call merged, if it was answered.
    pub fn merges(&self) -> &Merges {
        &self.merges
    }

    /// Whether the last call touched a block of this file; of each file if all bytes are compared.
    pub fn touched(&self, entry: &Entry) -> bool {
        self.touched.as_ref().is_none_or(|touched| touched.meets(entry))
    }

    /// Makes a call on both. Answers and all bytes have to be equal, of long disks those of `Touched`, and a refused
    /// call must not change any. Where all bytes are compared, a replacement has to be what its two calls are, and a
    /// list that of removals.
    pub fn call(&mut self, call: &Call, lent: Lent, content: &[u8]) -> Result<Answer, Difference> {
        for side in [&mut self.proved, &mut self.second] {
            side.clear_outputs(call);
        }
        self.merges = self.second.merges(call, lent);
        if let Some(touched) = &mut self.touched {
            touched.before(self.merges.moves());
        }
        let second = self.second.call_model(call, lent, content);
        if let Some(touched) = &mut self.touched {
            touched.after(call, second, self.second.cat.lent(lent.cat));
        }
        match second {
            Err(_) => self.keep(),
            Ok(_) if call.changes() => self.before.change(),
            Ok(_) => {}
        }
        let apart = self.touched.is_none().then(|| Apart::before(call, second, &self.proved, lent, content));
        let proved = self.proved.call_proved(call, lent, content);
        if proved != second {
            return Err(format!("the proved manager gave {}, the second {}", told(proved), told(second)));
        }
        let compared = self.compare_bytes(proved);
        match compared.and_then(|()| apart.map_or(Ok(()), |apart| apart.compare(proved, &self.proved, lent))) {
            Ok(()) => Ok(proved),
            Err(difference) => Err(format!("both gave {}, but {difference}", told(proved))),
        }
    }

    /// Changes a block of the proved manager's disk alone, to try whether that is seen.
    #[cfg(test)]
    pub fn change_proved(&mut self, block: usize) {
        self.before.disk.forget();
        self.proved.disk.lent_mut((block + 1) * BLOCK)[block * BLOCK] ^= 1;
    }

    /// Keeps the bytes before a refused call: of disks that are compared in parts only the catalogue.
    fn keep(&mut self) {
        self.before.cat.keep(&self.proved.cat);
        if self.touched.is_none() {
            self.before.disk.keep(&self.proved.disk);
        }
    }

    /// The bytes of both, and those before a refused call.
    fn compare_bytes(&self, answer: Answer) -> Result<(), Difference> {
        let (proved, second) = (&self.proved, &self.second);
        compare("catalogue", &proved.cat, &second.cat)?;
        compare("output", &proved.out, &second.out)?;
        compare("list", &proved.list, &second.list)?;
        match &self.touched {
            Some(touched) => self.compare_touched(touched)?,
            None => self.compare_disks()?,
        }
        if answer.is_ok() {
            return Ok(());
        }
        compare("catalogue of a refused call", &proved.cat, &self.before.cat.buffer)?;
        if self.touched.is_none() {
            compare("disk of a refused call", &proved.disk, &self.before.disk.buffer)?;
        }
        match proved.is_unwritten() {
            true => Ok(()),
            false => Err(format!("the output or list of a call that was {} was changed", told(answer))),
        }
    }

    /// The blocks of the last call, and what stands before and after the disks.
    fn compare_touched(&self, touched: &Touched) -> Result<(), Difference> {
        let (proved, second) = (&self.proved.disk, &self.second.disk);
        for (one, other) in proved.guards().into_iter().zip(second.guards()) {
            compare_from(0, "guard of the disk", one, other)?;
        }
        for blocks in touched.ranges() {
            let start = (blocks.start * BLOCK) as isize;
            compare_from(start, "disk", proved.blocks(blocks.clone()), second.blocks(blocks))?;
        }
        Ok(())
    }

    /// All bytes of the disks.
    pub fn compare_disks(&self) -> Result<(), Difference> {
        compare("disk", &self.proved.disk, &self.second.disk)
    }
}

/// An answer or a refusal in words.
pub fn told(answer: Answer) -> String {
    match answer {
        Ok(number) => format!("answer {number}"),
        Err(number) => format!("refused {number}"),
    }
}

//! The bytes of a catalogue, written.

use crate::{Catalogue, Pair};

/// Bytes to which fields are added, most significant byte first.
struct Fields {
    bytes: Vec<u8>,
    /// The bytes of a field for a number of blocks.
    width: usize,
}

impl Fields {
    /// A field of 2 bytes.
    fn short(&mut self, number: u16) {
        self.bytes.extend(number.to_be_bytes());
    }

    /// A field for a number of blocks.
    fn blocks(&mut self, number: u32) {
        let bytes = number.to_be_bytes();
        self.bytes.extend(&bytes[bytes.len() - self.width..]);
    }

    fn pairs(&mut self, pairs: &[Pair]) {
        for pair in pairs {
            self.blocks(pair.first);
            self.blocks(pair.length);
        }
    }
}

/// Fills the buffer with the bytes of a catalogue in its version, and with zero bytes to its end.
pub fn write(catalogue: &Catalogue, buffer: &mut [u8]) {
    let mut fields = Fields { bytes: Vec::new(), width: catalogue.version.field };
    fields.short(catalogue.version.number);
    fields.blocks(catalogue.blocks);
    fields.short(catalogue.entries.len() as u16);
    for entry in &catalogue.entries {
        fields.short(entry.id);
        fields.blocks(entry.blocks);
        fields.pairs(&entry.pairs);
    }
    fields.pairs(&catalogue.free);
    buffer.fill(0);
    for (place, byte) in buffer.iter_mut().zip(fields.bytes) {
        *place = byte;
    }
}

//! Damage to the bytes of a catalogue.

use std::ops::Range;

use model::{Catalogue, Version, MOST_FILES};

use crate::numbers::Numbers;

/// Values that lie at the limits of fields, and around the limits of each version.
const LIMITS: [u32; 22] = [
    0,
    1,
    2,
    3,
    63,
    64,
    65,
    255,
    256,
    4095,
    4096,
    4097,
    8192,
    65_535,
    65_536,
    1_048_575,
    1_048_576,
    1_048_577,
    2_097_152,
    0x7FFF_FFFF,
    0x8000_0000,
    0xFFFF_FFFF,
];

/// A catalogue being damaged.
struct Bytes<'a> {
    cat: &'a mut [u8],
    version: Version,
    /// The fields in use, and those of one pair after them.
    fields: Vec<Range<usize>>,
}

/// Damages the bytes of a catalogue in one place or a few, or puts other bytes in their place.
pub fn spoil(cat: &mut [u8], catalogue: &Catalogue, numbers: &mut Numbers) {
    let version = catalogue.version;
    if numbers.one_in(50) {
        return any_bytes(cat, version, numbers);
    }
    let mut bytes = Bytes { cat, version, fields: fields(catalogue) };
    for _ in 0..numbers.pick(&[1, 1, 1, 1, 1, 1, 2, 2, 3]) {
        bytes.spoil_once(numbers);
    }
}

/// The place of each field of a catalogue, and of one pair more.
fn fields(catalogue: &Catalogue) -> Vec<Range<usize>> {
    let wide = catalogue.version.field;
    let mut widths = vec![2, wide, 2];
    for entry in &catalogue.entries {
        widths.extend([2, wide]);
        widths.extend(vec![wide; 2 * entry.pairs.len()]);
    }
    widths.extend(vec![wide; 2 * catalogue.free.len() + 2]);
    let mut end = 0;
    let place = |width| {
        end += width;
        end - width..end
    };
    widths.into_iter().map(place).collect()
}

/// Other bytes, some after a header that is right: with each n as great as can be the entries would run past the end.
fn any_bytes(cat: &mut [u8], version: Version, numbers: &mut Numbers) {
    match numbers.within(0, 3) {
        0 => return numbers.fill(cat),
        1 => return cat.fill_with(|| numbers.within(0, 3) as u8),
        2 => cat.fill(0xFF),
        _ => numbers.fill(cat),
    }
    let (blocks, count) = (numbers.within(1, version.most_blocks) as u32, numbers.within(0, MOST_FILES) as u32);
    let header = fields(&Catalogue { version, blocks, entries: Vec::new(), free: Vec::new() });
    let mut bytes = Bytes { cat, version, fields: header };
    for (place, field) in [u32::from(version.number), blocks, count].into_iter().enumerate() {
        bytes.set(place, field);
    }
}

impl Bytes<'_> {
    fn get(&self, place: usize) -> u32 {
        self.cat[self.fields[place].clone()].iter().fold(0, |field, &byte| field << 8 | u32::from(byte))
    }

    /// Sets a field to the lower bytes of a number.
    fn set(&mut self, place: usize, field: u32) {
        let range = self.fields[place].clone();
        let bytes = field.to_be_bytes();
        self.cat[range.clone()].copy_from_slice(&bytes[bytes.len() - range.len()..]);
    }

    /// A field in use, or one of the two after.
    fn any(&self, numbers: &mut Numbers) -> usize {
        numbers.within(0, self.fields.len() - 1)
    }

    fn spoil_once(&mut self, numbers: &mut Numbers) {
        let (place, other) = (self.any(numbers), self.any(numbers));
        let field = self.get(place);
        let start = self.fields[place].start;
        match numbers.within(0, 12) {
            0 => {
                self.cat[numbers.pick(&[start, start + 1, self.fields[place].end - 1])] ^= numbers.within(1, 255) as u8
            }
            1 => self.set(place, numbers.pick(&LIMITS)),
            2 => self.set(place, field.wrapping_add(numbers.pick(&[1, u32::MAX]))),
            3 => self.set(place, field.wrapping_add(numbers.pick(&[1, u32::MAX]) << numbers.within(0, 20))),
            4 => self.set(place, numbers.next() as u32),
            5 => self.set(place, self.get(other)),
            6 => self.swap(place, other, 1),
            7 => self.swap(place, other, 2),
            8 => self.shift(start, numbers),
            9 => self.tail(numbers),
            10 => self.header(numbers),
            11 => self.upper(place, numbers),
            _ => self.cat[start..].fill(0),
        }
    }

    /// Sets or clears the upper half of a field.
    fn upper(&mut self, place: usize, numbers: &mut Numbers) {
        let half = 4 * self.fields[place].len();
        let lower = self.get(place) & ((1 << half) - 1);
        self.set(place, lower | numbers.pick(&[0, 1, 0x10, 0x8000, 0xFFFF]) << half);
    }

    /// Swaps fields, one or the two of a pair.
    fn swap(&mut self, place: usize, other: usize, count: usize) {
        for offset in 0..count {
            let last = self.fields.len() - 1;
            let (place, other) = ((place + offset).min(last), (other + offset).min(last));
            let (one, two) = (self.get(place), self.get(other));
            self.set(place, two);
            self.set(other, one);
        }
    }

    /// Takes a pair out, or puts one in.
    fn shift(&mut self, from: usize, numbers: &mut Numbers) {
        let (end, pair) = (self.cat.len(), 2 * self.version.field);
        if numbers.one_in(2) {
            self.cat.copy_within(from + pair.., from);
            self.cat[end - pair..].fill(0);
        } else {
            self.cat.copy_within(from..end - pair, from + pair);
        }
    }

    /// Bytes that have to be zero.
    fn tail(&mut self, numbers: &mut Numbers) {
        let (used, end) = (self.fields[self.fields.len() - 2].start, self.cat.len());
        let place = numbers.pick(&[used, used + 1, end - 1, end - 2]);
        let place = if numbers.one_in(3) { numbers.within(used, end - 1) } else { place };
        self.cat[place] = numbers.within(1, 255) as u8;
    }

    /// Version, C or k.
    fn header(&mut self, numbers: &mut Numbers) {
        let (place, change) = (numbers.within(0, 2), numbers.pick(&[1, 2, u32::MAX]));
        let field = if numbers.one_in(2) { numbers.pick(&LIMITS) } else { self.get(place).wrapping_add(change) };
        self.set(place, field);
    }
}

#[cfg(test)]
mod tests {
    use super::*;
    use model::BlockMap;

    /// Case 4, the header and the entry: fields of 2 bytes, and in the large catalogue of 4 for numbers of blocks.
    #[test]
    fn the_places_of_the_fields() {
        for (version, starts) in [
            (Version::SMALL, vec![0, 2, 4, 6, 8, 10, 12, 14, 16, 18, 20, 22, 24, 26, 28, 30, 32]),
            (Version::LARGE, vec![0, 2, 6, 8, 10, 14, 18, 22, 26, 30, 34, 38, 42, 46, 50, 54, 58]),
        ] {
            let mut map = BlockMap::fresh(version, 16);
            map.add(5, 3);
            let fields = fields(&map.catalogue());
            assert_eq!(fields.iter().map(|field| field.start).collect::<Vec<_>>(), starts);
            assert!(fields.iter().all(|field| field.len() == 2 || field.len() == version.field));
        }
    }
}

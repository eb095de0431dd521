//! Samples read from records, by the places that the records themselves name.

use crate::RECORD;
use std::fmt;

/// Why bytes are not records that this crate reads. The number is that of the record, from 0.
#[derive(Clone, Debug, PartialEq, Eq)]
pub enum BadRecord {
    /// The bytes are no whole number of records.
    Length(usize),
    /// The sequence number or the quality letter is none.
    Header(usize),
    /// There is no blockette 1000, or it names another encoding, order or length.
    Encoding(usize),
    /// The samples do not fit into the record.
    Samples(usize),
}

impl fmt::Display for BadRecord {
    fn fmt(&self, f: &mut fmt::Formatter<'_>) -> fmt::Result {
        match self {
            BadRecord::Length(bytes) => write!(f, "{bytes} bytes are no whole number of records of {RECORD} bytes"),
            BadRecord::Header(i) => write!(f, "record {i}: no sequence number or quality letter"),
            BadRecord::Encoding(i) => write!(f, "record {i}: not 32-bit integers in {RECORD} bytes"),
            BadRecord::Samples(i) => write!(f, "record {i}: its samples do not fit"),
        }
    }
}

impl std::error::Error for BadRecord {}

/// The samples of all records, in order.
pub fn samples(records: &[u8]) -> Result<Vec<i32>, BadRecord> {
    if !records.len().is_multiple_of(RECORD) {
        return Err(BadRecord::Length(records.len()));
    }
    let mut samples = Vec::new();
    for (i, record) in records.chunks(RECORD).enumerate() {
        samples.extend(samples_of(i, record)?);
    }
    Ok(samples)
}

/// The field of two bytes at a place, if it is inside the record.
fn field(record: &[u8], at: usize) -> Option<usize> {
    Some(usize::from(*record.get(at)?) << 8 | usize::from(*record.get(at + 1)?))
}

fn samples_of(i: usize, record: &[u8]) -> Result<Vec<i32>, BadRecord> {
    if !record[..6].iter().all(u8::is_ascii_digit) || !b"RDQM".contains(&record[6]) {
        return Err(BadRecord::Header(i));
    }
    if blockette_1000(record) != Some(&[3, 1, 9]) {
        return Err(BadRecord::Encoding(i));
    }
    let fits = || {
        let (count, start) = (field(record, 30)?, field(record, 44)?);
        record.get(start..start + 4 * count)
    };
    let bytes = fits().ok_or(BadRecord::Samples(i))?;
    Ok(bytes.chunks_exact(4).map(|b| i32::from_be_bytes([b[0], b[1], b[2], b[3]])).collect())
}

/// Encoding, order and length as blockette 1000 names them, found by going from blockette to blockette.
fn blockette_1000(record: &[u8]) -> Option<&[u8; 3]> {
    let mut at = field(record, 46)?;
    for _ in 0..record[39] {
        if field(record, at)? == 1000 {
            return record.get(at + 4..at + 7)?.try_into().ok();
        }
        at = field(record, at + 2)?;
    }
    None
}

#[cfg(test)]
mod tests {
    use super::*;
    use crate::event;

    #[test]
    fn bytes_that_are_no_records_are_told_apart() {
        assert_eq!(samples(&[0; 511]), Err(BadRecord::Length(511)));
        assert_eq!(samples(&[0; 512]), Err(BadRecord::Header(0)));
        let broken = |at: usize, byte: u8| {
            let mut records = event(1, 2);
            records[RECORD + at] = byte;
            samples(&records)
        };
        assert_eq!(broken(6, b'X'), Err(BadRecord::Header(1)));
        assert_eq!(broken(52, 11), Err(BadRecord::Encoding(1)), "another encoding");
        assert_eq!(broken(53, 0), Err(BadRecord::Encoding(1)), "another order");
        assert_eq!(broken(39, 0), Err(BadRecord::Encoding(1)), "no blockette");
        assert_eq!(broken(46, 255), Err(BadRecord::Encoding(1)), "a blockette past the end");
        assert_eq!(broken(31, 113), Err(BadRecord::Samples(1)), "a sample too many");
    }

    #[test]
    fn blockette_1000_may_stand_behind_another() {
        let mut record = event(1, 1);
        let samples_before = samples(&record).expect("a real record");
        record.copy_within(48..56, 56);
        record[48..56].copy_from_slice(&[0x03, 0xE9, 0, 56, 0, 0, 0, 0]); // blockette 1001, then the one at 56
        record[39] = 2;
        assert_eq!(samples(&record), Ok(samples_before));
    }
}

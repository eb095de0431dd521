//! miniSEED 2 records of 512 bytes: one record is one page of an event file.
//!
//! [`event`] makes a synthetic event of a volcano station, the same for the same seed on every machine, and
//! [`samples`] reads samples back from records. The records are real: a fixed section of data header, a blockette
//! 1000, and 112 samples as 32-bit integers, most significant byte first.
//!
//! ```
//! let records = miniseed::event(7, 3);
//! assert_eq!(records.len(), 3 * miniseed::RECORD);
//! assert_eq!(&records[..6], b"000001");
//! assert_eq!(miniseed::samples(&records)?.len(), 3 * miniseed::SAMPLES);
//! # Ok::<(), miniseed::BadRecord>(())
//! ```

#![forbid(unsafe_code)]

mod reading;
mod record;
mod signal;
mod time;

pub use reading::{samples, BadRecord};
pub use record::{Quality, Record};
pub use time::Time;

/// The bytes of a record.
pub const RECORD: usize = 512;
/// The first byte of the samples in a record.
pub const DATA: usize = 64;
/// The samples of a record.
pub const SAMPLES: usize = (RECORD - DATA) / 4;
/// The samples of a second.
pub const RATE: u16 = 100;

/// An event of so many records, with raw data's usual quality letter D. The seed decides its time and its signal.
pub fn event(seed: u64, records: usize) -> Vec<u8> {
    event_of(seed, records, Quality::D)
}

/// An event of so many records, with the given quality letter in each.
pub fn event_of(seed: u64, records: usize, quality: Quality) -> Vec<u8> {
    let samples = signal::signal(seed, records * SAMPLES);
    let mut time = signal::onset(seed);
    let mut bytes = Vec::with_capacity(records * RECORD);
    for (i, part) in samples.chunks(SAMPLES).enumerate() {
        let record = Record { number: i, quality, start: time, first: i == 0, last: i + 1 == records, samples: part };
        bytes.extend_from_slice(&record.bytes());
        time = time.later(SAMPLES as u64 * time::TICKS / u64::from(RATE));
    }
    bytes
}

#[cfg(test)]
mod tests {
    use super::*;

    #[test]
    fn an_event_is_the_same_for_the_same_seed() {
        assert_eq!(event(3, 4), event(3, 4));
        assert_ne!(event(3, 4), event(4, 4));
        assert_eq!(event(3, 0), Vec::<u8>::new());
    }

    #[test]
    fn what_is_read_back_is_the_signal() {
        for seed in 0..20 {
            let records = event(seed, 9);
            assert_eq!(samples(&records).expect("real records"), signal::signal(seed, 9 * SAMPLES));
        }
    }

    #[test]
    fn sequence_numbers_and_times_rise() {
        let records = event(11, 120);
        let heads: Vec<&[u8]> = records.chunks(RECORD).collect();
        for pair in heads.windows(2) {
            assert!(pair[0][..6] < pair[1][..6], "sequence numbers rise");
            assert!(pair[0][20..30] < pair[1][20..30], "times rise");
        }
        assert_eq!(&heads[119][..6], b"000120");
    }

    #[test]
    fn the_quality_letter_is_byte_six() {
        assert_eq!(event(1, 1)[6], b'D');
        for quality in Quality::ALL {
            assert!(event_of(1, 3, quality).chunks(RECORD).all(|record| record[6] == quality.letter()));
        }
    }
}

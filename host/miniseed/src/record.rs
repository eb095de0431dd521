//! A record as bytes.

use crate::{Time, DATA, RATE, RECORD, SAMPLES};

/// The quality letter of a record, lowest first: raw with unknown or known state, checked, and changed by an analyst.
#[derive(Clone, Copy, Debug, PartialEq, Eq, PartialOrd, Ord)]
pub enum Quality {
    R,
    D,
    Q,
    M,
}

impl Quality {
    /// The four letters, lowest first.
    pub const ALL: [Quality; 4] = [Quality::R, Quality::D, Quality::Q, Quality::M];

    /// The letter as it stands in a record.
    pub fn letter(self) -> u8 {
        match self {
            Quality::R => b'R',
            Quality::D => b'D',
            Quality::Q => b'Q',
            Quality::M => b'M',
        }
    }
}

/// What a record says: its number in the event from 0, the time of its first sample, and at most 112 samples.
pub struct Record<'a> {
    pub number: usize,
    pub quality: Quality,
    pub start: Time,
    pub first: bool,
    pub last: bool,
    pub samples: &'a [i32],
}

impl Record<'_> {
    /// The 512 bytes of the record. Samples past the 112th are left out.
    pub fn bytes(&self) -> [u8; RECORD] {
        let samples = &self.samples[..self.samples.len().min(SAMPLES)];
        let mut bytes = [0; RECORD];
        bytes[0..6].copy_from_slice(format!("{:06}", self.number % 999_999 + 1).as_bytes());
        bytes[6] = self.quality.letter();
        bytes[7..20].copy_from_slice(b" RAUP 00HHZVO"); // station, location, channel, network
        bytes[20..30].copy_from_slice(&self.start.btime());
        bytes[30..32].copy_from_slice(&(samples.len() as u16).to_be_bytes());
        bytes[32..34].copy_from_slice(&RATE.to_be_bytes()); // the rate factor
        bytes[34..36].copy_from_slice(&1u16.to_be_bytes()); // the rate multiplier
        bytes[36] = self.activity();
        bytes[39] = 1; // one blockette follows
        bytes[44..46].copy_from_slice(&(DATA as u16).to_be_bytes());
        bytes[46..48].copy_from_slice(&48u16.to_be_bytes()); // where it stands
        bytes[48..50].copy_from_slice(&1000u16.to_be_bytes());
        bytes[52..55].copy_from_slice(&[3, 1, 9]); // 32-bit integers, most significant byte first, 2^9 bytes
        for (place, sample) in bytes[DATA..].chunks_exact_mut(4).zip(samples) {
            place.copy_from_slice(&sample.to_be_bytes());
        }
        bytes
    }

    /// The activity flags: an event begins (bit 2), ends (bit 3), is in progress (bit 6).
    fn activity(&self) -> u8 {
        u8::from(self.first) << 2 | u8::from(self.last) << 3 | 1 << 6
    }
}

#[cfg(test)]
mod tests {
    use super::*;

    fn record() -> [u8; RECORD] {
        let start = Time { year: 2021, day: 258, ticks: 366_150_007 };
        let samples: Vec<i32> = (0..112).map(|i| i * 1_000 - 50_000).collect();
        Record { number: 41, quality: Quality::Q, start, first: true, last: false, samples: &samples }.bytes()
    }

    #[test]
    fn the_fixed_section_has_its_fields_at_their_places() {
        let bytes = record();
        assert_eq!(&bytes[0..6], b"000042", "sequence number");
        assert_eq!(bytes[6], b'Q', "quality letter");
        assert_eq!(bytes[7], b' ', "a space that the format reserves");
        assert_eq!(&bytes[8..13], b"RAUP ", "station");
        assert_eq!(&bytes[13..15], b"00", "location");
        assert_eq!(&bytes[15..18], b"HHZ", "channel");
        assert_eq!(&bytes[18..20], b"VO", "network");
        assert_eq!(bytes[20..30], [0x07, 0xE5, 0x01, 0x02, 10, 10, 15, 0, 0, 7], "time of the first sample");
        assert_eq!(bytes[30..32], [0, 112], "number of samples");
        assert_eq!(bytes[32..36], [0, 100, 0, 1], "rate factor and multiplier");
        assert_eq!(bytes[36], 0b0100_0100, "an event begins and is in progress");
        assert_eq!(bytes[37..39], [0, 0], "clock and quality flags");
        assert_eq!(bytes[39], 1, "number of blockettes");
        assert_eq!(bytes[40..44], [0; 4], "time correction");
        assert_eq!(bytes[44..48], [0, 64, 0, 48], "where the samples and the first blockette start");
    }

    #[test]
    fn blockette_1000_and_the_samples_follow() {
        let bytes = record();
        assert_eq!(bytes[48..56], [0x03, 0xE8, 0, 0, 3, 1, 9, 0], "type, no next one, encoding, order, length");
        assert_eq!(bytes[56..64], [0; 8]);
        assert_eq!(bytes[64..68], (-50_000i32).to_be_bytes());
        assert_eq!(bytes[508..512], 61_000i32.to_be_bytes());
    }

    #[test]
    fn sequence_numbers_start_again_after_six_nines() {
        let start = Time { year: 2021, day: 1, ticks: 0 };
        let of = |number| {
            let record = Record { number, quality: Quality::D, start, first: false, last: true, samples: &[5] };
            record.bytes()[..6].to_vec()
        };
        assert_eq!((of(999_998), of(999_999)), (b"999999".to_vec(), b"000001".to_vec()));
    }

    #[test]
    fn a_record_that_is_not_full_says_so() {
        let start = Time { year: 2021, day: 1, ticks: 0 };
        let bytes =
            Record { number: 0, quality: Quality::D, start, first: false, last: true, samples: &[5, -6] }.bytes();
        assert_eq!(bytes[30..32], [0, 2]);
        assert_eq!(bytes[36], 0b0100_1000, "an event ends");
        assert_eq!(crate::samples(&bytes), Ok(vec![5, -6]));
    }
}

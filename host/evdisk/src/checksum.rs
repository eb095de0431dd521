//! A checksum, to tell a file that was written whole from one that was not.

use std::io::{self, Write};

/// The 64-bit FNV-1a sum of the bytes. A change of any one byte changes it.
pub fn checksum(bytes: &[u8]) -> u64 {
    further(0xCBF2_9CE4_8422_2325, bytes)
}

/// The sum of bytes that follow others of a known sum.
fn further(sum: u64, bytes: &[u8]) -> u64 {
    bytes.iter().fold(sum, |sum, byte| (sum ^ u64::from(*byte)).wrapping_mul(0x0000_0100_0000_01B3))
}

/// A writer that keeps the sum of all that was written.
pub struct Summed<W> {
    out: W,
    pub sum: u64,
}

impl<W: Write> Summed<W> {
    pub fn new(out: W) -> Summed<W> {
        Summed { out, sum: checksum(&[]) }
    }
}

impl<W: Write> Write for Summed<W> {
    fn write(&mut self, bytes: &[u8]) -> io::Result<usize> {
        let count = self.out.write(bytes)?;
        self.sum = further(self.sum, &bytes[..count]);
        Ok(count)
    }

    fn flush(&mut self) -> io::Result<()> {
        self.out.flush()
    }
}

#[cfg(test)]
mod tests {
    use super::*;

    #[test]
    fn it_is_fnv_1a() {
        assert_eq!(checksum(b""), 0xCBF2_9CE4_8422_2325);
        assert_eq!(checksum(b"a"), 0xAF63_DC4C_8601_EC8C);
        assert_eq!(checksum(b"foobar"), 0x8594_4171_F739_67E8);
    }

    #[test]
    fn bytes_written_in_parts_have_the_sum_of_all() {
        let mut out = [0; 6];
        let mut summed = Summed::new(&mut out[..]);
        summed.write_all(b"foo").and_then(|()| summed.write_all(b"bar")).expect("there is room");
        assert_eq!(summed.write(b"more").expect("nothing is written where there is no room"), 0);
        assert_eq!((summed.sum, &out), (checksum(b"foobar"), b"foobar"));
    }
}

//! Times as a record has them: the year, the day of the year, and ticks of a ten-thousandth of a second.

/// The ticks of a second.
pub const TICKS: u64 = 10_000;
const DAY: u64 = 86_400 * TICKS;

/// A time: year, day of the year from 1, and the ticks since that day began.
#[derive(Clone, Copy, Debug, PartialEq, Eq, PartialOrd, Ord)]
pub struct Time {
    pub year: u16,
    pub day: u16,
    pub ticks: u64,
}

/// The days of a year.
fn days(year: u16) -> u16 {
    let leap = year.is_multiple_of(4) && (!year.is_multiple_of(100) || year.is_multiple_of(400));
    365 + u16::from(leap)
}

impl Time {
    /// The time so many ticks later.
    pub fn later(self, ticks: u64) -> Time {
        let mut time = Time { ticks: self.ticks + ticks, ..self };
        while time.ticks >= DAY {
            time.ticks -= DAY;
            time.day += 1;
            if time.day > days(time.year) {
                time.day = 1;
                time.year += 1;
            }
        }
        time
    }

    /// The ten bytes of a BTIME: year, day, hour, minute, second, a byte without use, and ticks of the second.
    pub fn btime(self) -> [u8; 10] {
        let seconds = self.ticks / TICKS;
        let mut bytes = [0; 10];
        bytes[0..2].copy_from_slice(&self.year.to_be_bytes());
        bytes[2..4].copy_from_slice(&self.day.to_be_bytes());
        bytes[4] = (seconds / 3600) as u8;
        bytes[5] = (seconds / 60 % 60) as u8;
        bytes[6] = (seconds % 60) as u8;
        bytes[8..10].copy_from_slice(&((self.ticks % TICKS) as u16).to_be_bytes());
        bytes
    }
}

#[cfg(test)]
mod tests {
    use super::*;

    #[test]
    fn a_time_goes_on_past_the_year() {
        let end = Time { year: 2023, day: 365, ticks: DAY - 1 };
        assert_eq!(end.later(1), Time { year: 2024, day: 1, ticks: 0 });
        let leap = Time { year: 2024, day: 365, ticks: DAY - 1 };
        assert_eq!(leap.later(2), Time { year: 2024, day: 366, ticks: 1 });
        assert_eq!((days(1900), days(2000)), (365, 366));
    }

    #[test]
    fn a_btime_has_its_parts_in_order() {
        let time = Time { year: 2021, day: 258, ticks: ((13 * 60 + 7) * 60 + 42) * TICKS + 1234 };
        assert_eq!(time.btime(), [0x07, 0xE5, 0x01, 0x02, 13, 7, 42, 0, 0x04, 0xD2]);
    }
}

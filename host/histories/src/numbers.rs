//! Numbers that look random and that one seed fixes.

/// A source of numbers: splitmix64.
pub struct Numbers {
    state: u64,
}

/// Spreads the bits of a number over all of its places.
pub fn mix(number: u64) -> u64 {
    let number = (number ^ (number >> 30)).wrapping_mul(0xBF58_476D_1CE4_E5B9);
    let number = (number ^ (number >> 27)).wrapping_mul(0x94D0_49BB_1331_11EB);
    number ^ (number >> 31)
}

impl Numbers {
    pub fn from_seed(seed: u64) -> Numbers {
        Numbers { state: seed }
    }

    /// The next number of 8 bytes.
    pub fn next(&mut self) -> u64 {
        self.state = self.state.wrapping_add(0x9E37_79B9_7F4A_7C15);
        mix(self.state)
    }

    /// A number from the least to the most, both included.
    pub fn within(&mut self, least: usize, most: usize) -> usize {
        least + (self.next() % (most - least + 1) as u64) as usize
    }

    /// True once in so many times.
    pub fn one_in(&mut self, times: usize) -> bool {
        self.within(1, times) == 1
    }

    /// One of these.
    pub fn pick<T: Copy>(&mut self, from: &[T]) -> T {
        from[self.within(0, from.len() - 1)]
    }

    /// The place of one of these, each as likely as its share of all.
    pub fn pick_by(&mut self, shares: impl Iterator<Item = usize> + Clone) -> usize {
        let mut left = self.within(1, shares.clone().sum());
        let taken = |share: usize| {
            let here = left <= share;
            left = left.saturating_sub(share);
            here
        };
        shares.map(taken).position(|here| here).unwrap_or(0)
    }

    /// Any number of 2 bytes.
    pub fn field(&mut self) -> u16 {
        self.next() as u16
    }

    /// Puts these in some order.
    pub fn shuffle<T>(&mut self, items: &mut [T]) {
        for last in (1..items.len()).rev() {
            items.swap(last, self.within(0, last));
        }
    }

    /// Fills bytes with numbers.
    pub fn fill(&mut self, bytes: &mut [u8]) {
        for chunk in bytes.chunks_mut(8) {
            let number = self.next().to_le_bytes();
            chunk.copy_from_slice(&number[..chunk.len()]);
        }
    }
}

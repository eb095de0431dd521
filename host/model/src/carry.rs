//! The limit on the blocks that a removal copies.

/// The sum of the place values 2^h at which f + n carries: those at which the remainders of f and n by 2^(h+1) add up
/// to at least 2^(h+1).
pub fn carries(f: u64, n: u64) -> u64 {
    let mut sum = 0;
    let mut place = 1;
    while place <= f.max(n) {
        if f % (2 * place) + n % (2 * place) >= 2 * place {
            sum += place;
        }
        place *= 2;
    }
    sum
}

#[cfg(test)]
mod tests {
    use super::carries;

    /// A carry out of a place shows as a bit of the sum that differs from the exclusive or, one place higher.
    #[test]
    fn the_carries_are_those_of_binary_addition() {
        for f in 0..600 {
            for n in 0..600 {
                assert_eq!(carries(f, n), ((f + n) ^ f ^ n) / 2, "f {f} n {n}");
            }
        }
    }

    #[test]
    fn the_removals_of_the_cases() {
        assert_eq!(carries(10, 3), 2);
        assert_eq!(carries(1, 1), 1);
        assert_eq!(carries(3, 1), 3);
        assert_eq!(carries(2048, 2047), 0);
        assert_eq!(carries(4095, 1), 4095);
    }
}

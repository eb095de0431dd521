//! Many values told by three.

/// Quartiles: a quarter of the values lies below `low`, and a quarter above `high`.
#[derive(Clone, Copy, Debug, PartialEq)]
pub struct Spread {
    pub low: f64,
    pub median: f64,
    pub high: f64,
}

impl Spread {
    pub fn of(mut values: Vec<f64>) -> Spread {
        values.sort_by(f64::total_cmp);
        let at = |quarter: usize| values[(values.len() - 1) * quarter / 4];
        Spread { low: at(1), median: at(2), high: at(3) }
    }

    /// The spread of one series over another, taken round by round.
    pub fn of_ratios(over: &[f64], under: &[f64]) -> Spread {
        Spread::of(over.iter().zip(under).map(|(a, b)| a / b).collect())
    }
}

#[cfg(test)]
mod tests {
    use super::*;

    #[test]
    fn quartiles_of_nine_values() {
        let spread = Spread::of([9, 1, 8, 2, 7, 3, 6, 4, 5].map(f64::from).to_vec());
        assert_eq!(spread, Spread { low: 3.0, median: 5.0, high: 7.0 });
    }
}

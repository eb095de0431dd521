//! Numbers and tables, in Markdown that is also plain to read.

use crate::spread::Spread;

/// A ratio with two digits after the point, or as many more as a small one needs to be told from 0.
pub fn digits(ratio: f64) -> String {
    let places = if (1e-9..0.01).contains(&ratio) { (-ratio.log10()).ceil() as usize } else { 2 };
    format!("{ratio:.places$}")
}

/// A median with its quartiles.
pub fn ratio(spread: Spread) -> String {
    let [median, low, high] = [spread.median, spread.low, spread.high].map(digits);
    format!("{median} ({low} to {high})")
}

/// A number with commas between its thousands.
pub fn thousands(number: f64) -> String {
    let digits = format!("{number:.0}");
    let mut text = String::new();
    for (i, digit) in digits.chars().enumerate() {
        if i > 0 && (digits.len() - i).is_multiple_of(3) {
            text.push(',');
        }
        text.push(digit);
    }
    text
}

/// A number of blocks.
pub fn blocks(number: u64) -> String {
    let s = if number == 1 { "" } else { "s" };
    format!("{} block{s}", thousands(number as f64))
}

/// A number with one digit after the point.
pub fn tenths(number: f64) -> String {
    format!("{number:.1}")
}

/// A Markdown table whose columns are as wide as their longest cell. The first column stands left, the others right.
pub fn table(header: &[&str], rows: &[Vec<String>]) -> String {
    let width = |column: usize| rows.iter().map(|row| row[column].len()).chain([header[column].len()]).max();
    let widths: Vec<usize> = (0..header.len()).map(|column| width(column).unwrap_or(0)).collect();
    let line = |cells: Vec<&str>| {
        let pad = |(i, cell): (usize, &&str)| match i {
            0 => format!("{cell:<0$}", widths[i]),
            _ => format!("{cell:>0$}", widths[i]),
        };
        format!("| {} |\n", cells.iter().enumerate().map(pad).collect::<Vec<_>>().join(" | "))
    };
    let rule = |(i, width): (usize, &usize)| "-".repeat(*width + 1) + if i == 0 { "-" } else { ":" };
    let rules: Vec<String> = widths.iter().enumerate().map(rule).collect();
    let body: String = rows.iter().map(|row| line(row.iter().map(String::as_str).collect())).collect();
    format!("{}|{}|\n{body}", line(header.to_vec()), rules.join("|"))
}

#[cfg(test)]
mod tests {
    use super::*;

    #[test]
    fn small_ratios_have_more_digits() {
        let ratios = [12.346, 0.567, 0.012, 0.00026, -0.5, 0.0];
        assert_eq!(ratios.map(digits), ["12.35", "0.57", "0.01", "0.0003", "-0.50", "0.00"]);
    }

    #[test]
    fn numbers_have_commas() {
        assert_eq!(["7", "1,000", "123,456"].map(String::from), [7.0, 999.6, 123456.0].map(thousands));
        assert_eq!(["0 blocks", "1 block", "1,000 blocks"].map(String::from), [0, 1, 1000].map(blocks));
    }
}

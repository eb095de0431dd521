//! A plot of the ratios: a bar from 1 to the left is faster, one to the right slower. The scale is by doublings.

use crate::markdown::digits;
use crate::report::{disk_text, Measured};
use crate::scene::Facts;
use crate::spread::Spread;
use crate::timing::Row;
use std::fmt::Write;

const LEFT: f64 = 130.0;
const WIDTH: f64 = 620.0;
const ROW: f64 = 22.0;
const HEAD: f64 = 34.0;
const TOP: f64 = 76.0;
const TWIN: &str = "#1f5f8b";
const SECOND: &str = "#c9a227";
const AIM: f64 = 1.1;
/// The least ratio that has a place of its own.
const SHORTEST: f64 = 1.0 / 128.0;

/// From a ratio to a place on the line.
struct Scale {
    lowest: f64,
    highest: f64,
}

impl Scale {
    /// The powers of two around all ratios, but for very small ones: their bars end at the left edge.
    fn of(rows: &[Row]) -> Scale {
        let ratios = rows.iter().flat_map(|row| [row.to_twin, row.to_model]);
        let (mut lowest, mut highest) = (0.5f64, 2.0f64);
        for ratio in ratios {
            lowest = lowest.min(ratio.low.log2().floor().exp2());
            highest = highest.max(ratio.high.log2().ceil().exp2());
        }
        Scale { lowest: lowest.max(SHORTEST), highest }
    }

    fn x(&self, ratio: f64) -> f64 {
        let share = (ratio / self.lowest).log2() / (self.highest / self.lowest).log2();
        LEFT + WIDTH * share.clamp(0.0, 1.0)
    }

    fn ticks(&self) -> Vec<f64> {
        let doublings = (self.highest / self.lowest).log2().round() as i32;
        (0..=doublings).map(|i| self.lowest * f64::from(i).exp2()).collect()
    }
}

/// One bar with its quartiles, from 1 to the ratio.
fn bar(svg: &mut String, scale: &Scale, y: f64, ratio: Spread, color: &str) {
    let (one, x) = (scale.x(1.0), scale.x(ratio.median));
    let (from, width) = (one.min(x), (one - x).abs().max(1.0));
    let (low, high, middle) = (scale.x(ratio.low), scale.x(ratio.high), y + 4.0);
    writeln!(svg, r#"<rect x="{from:.1}" y="{y:.1}" width="{width:.1}" height="8" fill="{color}"/>"#).ok();
    writeln!(svg, r##"<path d="M{low:.1} {middle:.1}H{high:.1}" stroke="#222" stroke-width="1.5"/>"##).ok();
    let (anchor, at) = if x < one { ("end", from - 4.0) } else { ("start", one.max(x) + 4.0) };
    let at = if x < one { at.min(low - 4.0) } else { at.max(high + 4.0) };
    let label = y + 7.0;
    let number = digits(ratio.median);
    writeln!(svg, r#"<text x="{at:.1}" y="{label:.1}" text-anchor="{anchor}" class="n">{number}</text>"#).ok();
}

fn text(svg: &mut String, x: f64, y: f64, class: &str, words: &str) {
    writeln!(svg, r#"<text x="{x:.1}" y="{y:.1}" class="{class}">{words}</text>"#).ok();
}

/// The lines of the scale: 1, the aim, and each doubling.
fn grid(svg: &mut String, scale: &Scale, bottom: f64) {
    for tick in scale.ticks() {
        let x = scale.x(tick);
        let color = if tick == 1.0 { "#222" } else { "#ddd" };
        let top = TOP - 8.0;
        writeln!(svg, r#"<path d="M{x:.1} {top}V{bottom:.1}" stroke="{color}"/>"#).ok();
        let name = if tick < 1.0 { format!("1/{:.0}", 1.0 / tick) } else { format!("{tick:.0}") };
        writeln!(svg, r#"<text x="{x:.1}" y="{:.1}" text-anchor="middle" class="n">{name}</text>"#, TOP - 12.0).ok();
    }
    let x = scale.x(AIM);
    writeln!(svg, r##"<path d="M{x:.1} {TOP}V{bottom:.1}" stroke="#b33" stroke-dasharray="3 3"/>"##).ok();
}

fn legend(svg: &mut String) {
    text(svg, 10.0, 20.0, "t", "Time of the proved call over that of another implementation");
    for (x, color, words) in [(10.0, TWIN, "over the plain twin"), (170.0, SECOND, "over the second implementation")] {
        writeln!(svg, r#"<rect x="{x}" y="34" width="12" height="8" fill="{color}"/>"#).ok();
        text(svg, x + 18.0, 42.0, "n", words);
    }
    let words = format!("left of 1: faster; dashed: the aim of {AIM}; thin line: half of all rounds");
    text(svg, 390.0, 42.0, "n", &words);
}

/// The calls of one disk, from `y` on. Answers where they end.
fn group(svg: &mut String, scale: &Scale, facts: &Facts, rows: &[&Row], mut y: f64) -> f64 {
    text(svg, 10.0, y + 18.0, "h", &disk_text(&facts.shape));
    y += HEAD - 8.0;
    for row in rows {
        text(svg, 10.0, y + 12.0, "c", row.call.name());
        bar(svg, scale, y + 1.0, row.to_twin, TWIN);
        bar(svg, scale, y + 11.0, row.to_model, SECOND);
        y += ROW;
    }
    y + 8.0
}

/// The whole plot.
pub fn svg(measured: &Measured) -> String {
    let scale = Scale::of(&measured.rows);
    let mut body = String::new();
    let mut y = TOP;
    for (i, facts) in measured.scenes.iter().enumerate() {
        let rows: Vec<&Row> = measured.rows.iter().filter(|row| row.scene == i).collect();
        y = group(&mut body, &scale, facts, &rows, y);
    }
    let mut back = String::new();
    grid(&mut back, &scale, y);
    legend(&mut back);
    let (width, height) = (LEFT + WIDTH + 40.0, y + 10.0);
    let style = "text{font-family:sans-serif;fill:#222}.t{font-size:15px}.h{font-size:12px;font-weight:bold}\
                 .c{font-size:12px}.n{font-size:10px}";
    format!(
        "<svg xmlns=\"http://www.w3.org/2000/svg\" viewBox=\"0 0 {width:.0} {height:.0}\" width=\"{width:.0}\">\n\
         <style>{style}</style>\n<rect width=\"100%\" height=\"100%\" fill=\"#fff\"/>\n{back}{body}</svg>\n"
    )
}

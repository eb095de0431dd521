//! The tables of all that was measured.

use crate::agreement::OtherLayout;
use crate::beside::{beside_part, other_layouts_part, BesideLine};
use crate::builds::Build;
use crate::copies::{self, Copies};
use crate::listing::{Listing, LIMIT};
use crate::markdown::{blocks, ratio, table, tenths, thousands};
use crate::removals::{self, Kind, Removal};
use crate::scene::Facts;
use crate::shape::Shape;
use crate::timing::{self, Row};

/// All that was measured.
pub struct Measured {
    pub rounds: usize,
    /// The builds beside, wherever they take part.
    pub builds: Vec<&'static Build>,
    pub scenes: Vec<Facts>,
    pub rows: Vec<Row>,
    /// For each scene the builds whose removal leaves another layout.
    pub other_layouts: Vec<Vec<OtherLayout>>,
    pub listings: Vec<Listing>,
    pub copies: Vec<Copies>,
    pub removals: Vec<(Kind, Vec<Removal>)>,
}

/// A disk in a few words.
pub fn disk_text(shape: &Shape) -> String {
    format!("version {}, C = {}, {} files", shape.version.number, thousands(shape.blocks as f64), shape.files)
}

fn scene_text(facts: &Facts) -> String {
    let shape = &facts.shape;
    let disk = disk_text(shape).replacen('v', "V", 1);
    let [of_file, copied] = [shape.file_blocks as u64, facts.copied].map(blocks);
    format!("{disk} of {of_file}, {} pairs; the removal copies {copied}", shape.pairs())
}

fn call_row(row: &Row) -> Vec<String> {
    let [proved, twin, model, _] = row.times.map(|time| thousands(time.median));
    vec![row.call.name().into(), ratio(row.to_twin), ratio(row.to_model), ratio(row.to_itself), proved, twin, model]
}

/// The tables of one disk's calls.
fn scene_table(measured: &Measured, scene: usize) -> String {
    let calls: Vec<&Row> = measured.rows.iter().filter(|row| row.scene == scene).collect();
    let rows: Vec<_> = calls.iter().map(|row| call_row(row)).collect();
    let header = ["call", "proved / twin", "proved / second", "proved / proved", "proved ns", "twin ns", "second ns"];
    let facts = &measured.scenes[scene];
    let lines: Vec<BesideLine> =
        calls.iter().map(|row| (vec![row.call.name().into()], row.besides.as_slice())).collect();
    let beside = beside_part(&measured.builds, facts.shape.version, &["call"], &lines, thousands);
    let others = other_layouts_part(&measured.other_layouts[scene]);
    format!("### {}\n\n{}{beside}{others}", scene_text(facts), table(&header, &rows))
}

/// The table of lists beside removals.
fn listings_table(listings: &[Listing]) -> String {
    let header = ["disk", "most", "proved which / remove", "twin which / remove", "which ns", "remove ns"];
    let row = |listing: &Listing| {
        let shape = &listing.facts.shape;
        let disk = format!("{}, {} pairs", disk_text(shape), shape.pairs());
        let most = if listing.is_limited() { format!("{LIMIT}") } else { "-".into() };
        let (proved, twin) = (&listing.proved, &listing.twin);
        let times = [proved.list, proved.removal].map(|time| thousands(time.median));
        [vec![disk, most, ratio(proved.ratio), ratio(twin.ratio)], times.into()].concat()
    };
    let rows: Vec<_> = listings.iter().map(row).collect();
    format!("### All removals of 64 files listed, beside one removal\n\n{}", table(&header, &rows))
}

/// The tables of block copies.
fn copies_table(builds: &[&Build], copies: &[Copies]) -> String {
    let header = [
        "disk",
        "past a page",
        "blocks copied",
        "proved / copy_within",
        "proved / twin",
        "proved ns",
        "twin ns",
        "second ns",
        "copy_within ns",
    ];
    let row = |c: &Copies| {
        let mut cells = copies_cells(c);
        cells.extend([ratio(c.to_alone), ratio(c.to_twin)]);
        let times = c.removals.into_iter().chain([c.alone]);
        cells.extend(times.map(|time| tenths(time.median)));
        cells
    };
    let rows: Vec<_> = copies.iter().map(row).collect();
    let lines: Vec<BesideLine> = copies.iter().map(|c| (copies_cells(c), c.besides.as_slice())).collect();
    let beside = beside_part(builds, copies::VERSION, &header[..3], &lines, tenths);
    format!("### Block copies, for each block\n\n{}{beside}", table(&header, &rows))
}

/// The disk, where it starts, and how many blocks are copied.
fn copies_cells(c: &Copies) -> Vec<String> {
    let [blocks, copied] = [c.blocks, c.copied].map(|n| thousands(n as f64));
    vec![format!("C = {blocks}"), format!("{} bytes", c.past), copied]
}

/// The tables of removals of a kind.
fn removals_table(builds: &[&Build], kind: &Kind, removals: &[Removal]) -> String {
    let header = ["disk", kind.section, "blocks copied", "proved / twin", "proved ns", "twin ns", "second ns"];
    let row = |removal: &Removal| {
        let times = removal.times.map(|time| thousands(time.median));
        [removal_cells(removal), vec![ratio(removal.to_twin)], times.into()].concat()
    };
    let rows: Vec<_> = removals.iter().map(row).collect();
    let there = removals.first().map_or(&[][..], |removal| &removal.besides);
    let copied_by = there.iter().map(|beside| format!("copied by {}", beside.build.name));
    let first_cells: Vec<String> = header[..3].iter().map(|name| name.to_string()).chain(copied_by).collect();
    let cells = |removal: &Removal| {
        let copied_by = removal.copied_by.iter().map(|&copied| thousands(copied as f64));
        removal_cells(removal).into_iter().chain(copied_by).collect()
    };
    let lines: Vec<BesideLine> = removals.iter().map(|removal| (cells(removal), removal.besides.as_slice())).collect();
    let first_cells: Vec<&str> = first_cells.iter().map(String::as_str).collect();
    let beside = beside_part(builds, removals::VERSION, &first_cells, &lines, thousands);
    format!("### {}\n\n{}{beside}", kind.title, table(&header, &rows))
}

/// The disk, the blocks of the section that the removal is about, and how many blocks are copied.
fn removal_cells(removal: &Removal) -> Vec<String> {
    let [blocks, section, copied] = [removal.blocks, removal.section, removal.copied].map(|n| thousands(n as f64));
    vec![format!("C = {blocks}"), section, copied]
}

/// How far apart two series of the same code were.
fn noise(rows: &[Row]) -> String {
    let off = rows.iter().map(|row| (row.to_itself.median - 1.0).abs()).fold(0.0, f64::max);
    let mut widths: Vec<f64> = rows.iter().map(|row| row.to_itself.high - row.to_itself.low).collect();
    widths.sort_by(f64::total_cmp);
    format!(
        "Noise of this run: the ratio of the proved calls to themselves is off 1 by at most {:.1} % in the median of \
         any row;\nhalf of its rounds lie within a range of {:.1} % in the middle row, and of {:.1} % in the worst.\n",
        100.0 * off,
        100.0 * widths[widths.len() / 2],
        100.0 * widths[widths.len() - 1]
    )
}

/// How often the calls were timed.
fn effort(rounds: usize) -> String {
    format!(
        "{rounds} rounds. A batch has {} calls, or as many as move {} pages together, and at least one; for the\n\
         second implementation, which may fill a map of all blocks, and for a list one for each file, the blocks of the\n\
         disk count like pages.\n",
        timing::BATCH,
        thousands(timing::BATCH_PAGES as f64)
    )
}

/// All tables.
pub fn text(measured: &Measured) -> String {
    let mut parts: Vec<String> = (0..measured.scenes.len()).map(|scene| scene_table(measured, scene)).collect();
    parts.push(listings_table(&measured.listings));
    parts.push(copies_table(&measured.builds, &measured.copies));
    parts.extend(measured.removals.iter().map(|(kind, removals)| removals_table(&measured.builds, kind, removals)));
    parts.push(effort(measured.rounds) + &noise(&measured.rows));
    parts.join("\n")
}

pub const BEGIN: &str = "<!-- measured: begin -->\n";
pub const END: &str = "<!-- measured: end -->\n";

/// The document with the tables between its marks.
pub fn put_between_marks(document: &str, tables: &str) -> Option<String> {
    let (before, rest) = document.split_once(BEGIN)?;
    let (_, after) = rest.split_once(END)?;
    Some(format!("{before}{BEGIN}\n{tables}\n{END}{after}"))
}

#[cfg(test)]
mod tests {
    use super::*;

    #[test]
    fn only_what_is_between_the_marks_changes() {
        let document = format!("a\n{BEGIN}old\n{END}b\n");
        assert_eq!(put_between_marks(&document, "new").unwrap(), format!("a\n{BEGIN}\nnew\n{END}b\n"));
        assert_eq!(put_between_marks("no marks", "new"), None);
    }
}

//! The tables of other builds.

use crate::agreement::OtherLayout;
use crate::builds::Build;
use crate::markdown::{blocks, ratio, table};
use crate::timing::Beside;
use twin::Version;

/// In the place of a number: the build does not have the call.
const NONE: &str = "-";

/// The first cells of a line, and the builds beside that have a place in it. The first line has all.
pub type BesideLine<'a> = (Vec<String>, &'a [Beside]);

/// The proved calls over those of other builds, and which builds are left out since they do not have the version. There
/// is nothing to tell in a run without other builds.
pub fn beside_part(
    builds: &[&Build],
    version: Version,
    first_cells: &[&str],
    lines: &[BesideLine],
    nanoseconds: fn(f64) -> String,
) -> String {
    let there: Vec<&Build> = lines.first().map_or(vec![], |(_, besides)| besides.iter().map(|b| b.build).collect());
    let mut text = String::new();
    if !there.is_empty() {
        let ratios = there.iter().map(|build| format!("proved / {}", build.name));
        let times = there.iter().map(|build| format!("{} ns", build.name));
        let names: Vec<String> = ratios.chain(times).collect();
        let header: Vec<&str> = first_cells.iter().copied().chain(names.iter().map(String::as_str)).collect();
        let row = |(cells, besides): &BesideLine| {
            let of = |build: &Build| besides.iter().find(|beside| beside.build == build);
            let ratios = there.iter().map(|build| of(build).map_or(NONE.into(), |beside| ratio(beside.from_proved)));
            let times =
                there.iter().map(|build| of(build).map_or(NONE.into(), |beside| nanoseconds(beside.time.median)));
            cells.iter().cloned().chain(ratios).chain(times).collect()
        };
        let rows: Vec<Vec<String>> = lines.iter().map(row).collect();
        text = format!("\nBeside other builds:\n\n{}", table(&header, &rows));
    }
    for build in builds.iter().filter(|build| !there.contains(build)) {
        text += &format!("\nThe build `{}` refuses version {} and is left out here.\n", build.name, version.number);
    }
    text
}

/// Which builds merge other free sections in the removal of a disk, so that it is not the same work that is timed.
pub fn other_layouts_part(others: &[OtherLayout]) -> String {
    let line = |other: &OtherLayout| {
        let (name, copied) = (&other.build.name, blocks(other.copied));
        format!(
            "\nThe build `{name}` merges other free sections in this removal: it copies {copied}, and leaves another \
             layout.\n"
        )
    };
    others.iter().map(line).collect()
}

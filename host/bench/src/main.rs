//! Times the proved event disk manager beside a plain twin and beside the second implementation, as ratios.

#![deny(unsafe_code)]

mod agreement;
mod arguments;
mod beside;
mod builds;
mod copies;
#[allow(unsafe_code)]
mod library;
mod listing;
mod markdown;
mod numbers;
mod plot;
mod removals;
mod report;
mod scene;
mod shape;
mod sides;
mod spread;
mod timing;

use arguments::Task;
use builds::Build;
use listing::Listing;
use removals::Kind;
use report::Measured;
use scene::Scene;
use shape::Shape;
use sides::{Call, Side};
use std::path::Path;
use std::process::ExitCode;

/// Times every call on every disk, one disk after another, lists beside removals, the block copies, and removals of two
/// kinds. A build takes part where it has the version.
fn measure(builds: Vec<&'static Build>, rounds: usize) -> Measured {
    let that_serve = |version| builds.iter().copied().filter(|build| build.serves(version)).collect::<Vec<_>>();
    let (mut scenes, mut rows, mut other_layouts, mut listings) = (Vec::new(), Vec::new(), Vec::new(), Vec::new());
    for shape in Shape::ALL {
        eprintln!("using the disk {} ..", shape.name);
        let mut scene = Scene::used(shape);
        let there = that_serve(shape.version);
        other_layouts.push(agreement::sides_agree(&mut scene, &there));
        for call in Call::ALL {
            eprintln!("timing {} on {} ..", call.name(), shape.name);
            rows.push(timing::time_call(&mut scene, scenes.len(), call, &there, rounds));
        }
        if listing::is_timed(&shape) {
            listings.push(Listing::time(&mut scene, rounds));
        }
        scenes.push(scene.facts);
    }
    let places = [(7, 0), (7, 16), (10, 0), (10, 16)];
    let there = that_serve(copies::VERSION);
    let copies = places.map(|(top, past)| copies::time_copies(top, past, &there, rounds)).into();
    let there = that_serve(removals::VERSION);
    let on_disks = |kind: Kind| {
        let removals = [4096, 1 << 20].map(|blocks| kind.time(blocks, &there, rounds)).into();
        (kind, removals)
    };
    let removals = [removals::HALF_FREE, removals::FREE_BUDDIES].map(on_disks).into();
    Measured { rounds, builds, scenes, rows, other_layouts, listings, copies, removals }
}

/// Writes the tables and the plot to the documents. It is to be run where the folder `docs` is.
fn write(measured: &Measured, tables: &str) -> Result<(), String> {
    let (page, plot) = (Path::new("docs/BENCHMARK.md"), Path::new("docs/benchmark.svg"));
    let wrong = |path: &Path, what: String| format!("{}: {what}", path.display());
    let document = std::fs::read_to_string(page).map_err(|e| wrong(page, e.to_string()))?;
    let changed = report::put_between_marks(&document, tables);
    let changed = changed.ok_or_else(|| wrong(page, "it has no marks to write between".into()))?;
    std::fs::write(page, changed).map_err(|e| wrong(page, e.to_string()))?;
    std::fs::write(plot, plot::svg(measured)).map_err(|e| wrong(plot, e.to_string()))
}

/// Makes a call about `calls` times: whole batches.
fn profile(side: Side, call: Call, disk: &str, calls: usize) -> Result<(), String> {
    let shape = Shape::named(disk).ok_or(format!("'{disk}' is no disk"))?;
    let mut scene = Scene::used(shape);
    let mut batch = timing::Batch::new(&mut scene, call);
    let count = timing::batch_of(side, call, &shape);
    for _ in 0..calls.div_ceil(count) {
        batch.time(side);
    }
    Ok(())
}

fn run() -> Result<(), String> {
    match arguments::parse(std::env::args().skip(1))? {
        Task::Help => print!("{}", arguments::HELP),
        Task::Profile { side, call, disk, calls } => profile(side, call, &disk, calls)?,
        Task::Measure { rounds, write: to_documents, beside } => {
            let builds = beside.into_iter().map(Build::load).collect::<Result<_, _>>()?;
            let measured = measure(builds, rounds);
            let tables = report::text(&measured);
            print!("{tables}");
            if to_documents {
                write(&measured, &tables)?;
            }
            measured.listings.iter().try_for_each(Listing::check)?;
        }
    }
    Ok(())
}

fn main() -> ExitCode {
    match run() {
        Ok(()) => ExitCode::SUCCESS,
        Err(what) => {
            eprintln!("bench: {what}");
            ExitCode::from(2)
        }
    }
}

//! Links the archive that `rt lib` writes in crates/evdisk, unless the plain twin takes its place.

use std::path::PathBuf;

fn main() {
    if std::env::var_os("CARGO_FEATURE_UNPROVED").is_some() {
        return;
    }
    let root = PathBuf::from(std::env::var("CARGO_MANIFEST_DIR").expect("cargo sets it"));
    let folder = root.join("../../crates/evdisk/out");
    let archive = folder.join("libevdisk.a");
    println!("cargo:rerun-if-changed={}", archive.display());
    if !archive.exists() {
        eprintln!("libevdisk.a is missing: run `rt lib` in crates/evdisk first");
        std::process::exit(1);
    }
    println!("cargo:rustc-link-search=native={}", folder.display());
    println!("cargo:rustc-link-lib=static=evdisk");
}

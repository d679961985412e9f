//! Links the archive that tools/build-library writes.

use std::env;
use std::path::Path;

fn main() {
    if env::var_os("CARGO_FEATURE_LIBRARY").is_none() {
        return;
    }
    let library = concat!(env!("CARGO_MANIFEST_DIR"), "/../target/library");
    let archive = format!("{library}/libmritvelja.a");
    if !Path::new(&archive).exists() {
        println!("cargo:warning={archive} is missing: run tools/build-library");
    }
    println!("cargo:rustc-link-search=native={library}");
    println!("cargo:rustc-link-lib=static=mritvelja");
    println!("cargo:rerun-if-changed={archive}");
}

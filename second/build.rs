//! Says where libdriftwicket.a is, which the comparing program links (src/library.rs).
//!
//! The directory is DRIFTWICKET_LIB_DIR, or ../build, where `make lib` puts it; a relative one is taken from
//! this package. Only the program is linked: the library target and its tests build where the archive is missing.

use std::env;
use std::path::Path;

const ARCHIVE: &str = "libdriftwicket.a";

fn main() {
    println!("cargo:rerun-if-env-changed=DRIFTWICKET_LIB_DIR");
    println!("cargo:rustc-check-cfg=cfg(driftwicket_missing)");
    let package = env::var("CARGO_MANIFEST_DIR").expect("cargo names the package's directory");
    let directory = env::var("DRIFTWICKET_LIB_DIR").unwrap_or_else(|_| "../build".to_string());
    let directory = Path::new(&package).join(directory);
    let archive = directory.join(ARCHIVE);
    println!("cargo:rerun-if-changed={}", archive.display());
    if archive.is_file() {
        println!("cargo:rustc-link-search=native={}", directory.display());
    } else {
        // main.rs turns this into a compile error that says what to do
        println!("cargo:rustc-cfg=driftwicket_missing");
        println!("cargo:rustc-env=DRIFTWICKET_MISSING={}", archive.display());
    }
}

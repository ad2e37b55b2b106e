//! Builds and links the static library: `make lib` in the repository's root proves it and writes it, and does nothing
//! where the archive that stands is current. What it says is this script's output: cargo shows that with -vv while it
//! comes, and by itself where the script fails.
//!
//! DRIFTWICKET_LIB_DIR names the directory of an archive that stands already (a relative one is taken from this
//! package); then nothing is built. The archive is copied to cargo's own folder, so that it is linked from there
//! whatever becomes of the place where it was made.

use std::env;
use std::error::Error;
use std::fs;
use std::path::{Path, PathBuf};
use std::process::{Command, ExitCode};

const ARCHIVE: &str = "libdriftwicket.a";
const DIRECTORY: &str = "DRIFTWICKET_LIB_DIR";

/// What `make lib` makes the archive from, in the repository's root.
const SOURCES: [&str; 5] = ["Makefile", "crates", "crates.txt", "kit.txt", "tools/library"];

fn main() -> ExitCode {
    match link() {
        Ok(()) => ExitCode::SUCCESS,
        Err(error) => {
            eprintln!("{error}");
            ExitCode::FAILURE
        }
    }
}

/// Finds or makes the archive, and tells cargo to link it.
fn link() -> Result<(), Box<dyn Error>> {
    println!("cargo:rerun-if-env-changed={DIRECTORY}");
    let package = PathBuf::from(env::var("CARGO_MANIFEST_DIR")?);
    let archive = match env::var_os(DIRECTORY) {
        Some(directory) => standing(&package.join(directory))?,
        None => made(&package.join(".."))?,
    };
    let out = PathBuf::from(env::var("OUT_DIR")?);
    fs::copy(&archive, out.join(ARCHIVE)).map_err(|error| format!("{}: {error}", archive.display()))?;
    println!("cargo:rustc-link-search=native={}", out.display());
    println!("cargo:rustc-link-lib=static=driftwicket");
    Ok(())
}

/// An archive that the caller names.
fn standing(directory: &Path) -> Result<PathBuf, String> {
    let archive = directory.join(ARCHIVE);
    println!("cargo:rerun-if-changed={}", archive.display());
    if archive.is_file() {
        Ok(archive)
    } else {
        Err(format!("{DIRECTORY} names a directory without {ARCHIVE}: {}", archive.display()))
    }
}

/// The archive that the repository makes, for the machine at hand.
fn made(root: &Path) -> Result<PathBuf, Box<dyn Error>> {
    for source in SOURCES {
        println!("cargo:rerun-if-changed={}", root.join(source).display());
    }
    let (host, target) = (env::var("HOST")?, env::var("TARGET")?);
    if host != target {
        return Err(
            format!("`make lib` builds for {host}: for {target}, name an archive's directory in {DIRECTORY}").into()
        );
    }
    for (tool, words) in [("make", "GNU make"), ("rt", "the Rattle kit, which proves and compiles the library")] {
        if !on_path(tool) {
            return Err(format!(
                "`{tool}` is not on the path: {words}. It is needed to build {ARCHIVE}; where that stands already, \
                 name its directory in {DIRECTORY}"
            )
            .into());
        }
    }
    // cargo's own search path for shared libraries isn't for the kit's programs
    let arguments = ["--no-print-directory", "lib", "-C"];
    let status = Command::new("make").args(arguments).arg(root).env_remove("LD_LIBRARY_PATH").status()?;
    if !status.success() {
        return Err(format!("`make lib` failed in {}", root.display()).into());
    }
    Ok(root.join("build").join(ARCHIVE))
}

/// Whether a program can be called by its name.
fn on_path(program: &str) -> bool {
    let path = env::var_os("PATH").unwrap_or_default();
    env::split_paths(&path).any(|folder| folder.join(program).is_file())
}

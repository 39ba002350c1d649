//! Finds the proved library, or has it made, and links it.
use std::env;
use std::io::stderr;
use std::path::{Path, PathBuf};
use std::process::{exit, Command};

fn main() {
    println!("cargo:rerun-if-changed=build.rs");
    println!("cargo:rerun-if-env-changed=CRUSTEDLANE_ARCHIVE");
    let archive = match env::var_os("CRUSTEDLANE_ARCHIVE") {
        Some(named) => absolute(PathBuf::from(named)),
        None => of_the_repository(),
    };
    println!("cargo:rerun-if-changed={}", archive.display());
    // Under a name of our own, since the one that the variable names may have any.
    let linked = PathBuf::from(env::var_os("OUT_DIR").expect("Cargo sets it"));
    if let Err(error) = std::fs::copy(&archive, linked.join("libcrustedlane.a")) {
        stop(&format!("The library {} can't be read: {error}.", archive.display()));
    }
    println!("cargo:rustc-link-search=native={}", linked.display());
    println!("cargo:rustc-link-lib=static=crustedlane");
}

/// The path that the variable names. A relative one would be read in this package's folder, where Cargo runs this script,
/// and not in the user's, so it is refused.
fn absolute(archive: PathBuf) -> PathBuf {
    if archive.is_relative() {
        stop(&format!("CRUSTEDLANE_ARCHIVE must be an absolute path, and {} is not one.", archive.display()));
    }
    archive
}

/// The archive in the repository that this package stands in, made if it is not there.
fn of_the_repository() -> PathBuf {
    let package = PathBuf::from(env::var_os("CARGO_MANIFEST_DIR").expect("Cargo sets it"));
    let Some(root) = package.ancestors().find(|folder| folder.join("crates.txt").is_file()) else {
        stop("This package is built inside its repository, or with CRUSTEDLANE_ARCHIVE naming the library.");
    };
    let archive = root.join("target/staticlib/libcrustedlane.a");
    if !archive.exists() {
        make(root);
    }
    archive
}

/// Proves and makes the library. What `rt` prints is not for Cargo to read, so it goes to standard error.
fn make(root: &Path) {
    match Command::new(root.join("tools/staticlib")).stdout(stderr()).status() {
        Ok(status) if status.success() => {}
        Ok(status) => stop(&format!("tools/staticlib failed: {status}.")),
        Err(error) => stop(&format!("tools/staticlib can't be run: {error}.")),
    }
}

fn stop(why: &str) -> ! {
    eprintln!("{why}");
    exit(1)
}

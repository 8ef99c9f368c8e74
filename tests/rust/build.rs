//! With the feature `library`, links the proved library's archive to the tests.

use std::path::Path;

/// Where `tools/c-library` leaves the archive, as `tests/archive` has it.
const ARCHIVE: &str = "../../target/staticlib/libmetlazuel.a";

fn main() {
    println!("cargo:rerun-if-changed=build.rs");
    if std::env::var_os("CARGO_FEATURE_LIBRARY").is_some() {
        link();
    }
}

fn link() {
    println!("cargo:rerun-if-changed={ARCHIVE}");
    match Path::new(ARCHIVE).canonicalize() {
        Ok(archive) => println!("cargo:rustc-link-arg-tests={}", archive.display()),
        Err(_) => missing(),
    }
}

fn missing() {
    eprintln!("no archive at {ARCHIVE}: build it in the project's root with `tools/c-library`");
    std::process::exit(1);
}

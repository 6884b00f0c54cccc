//! Tells the compiler where the archive is: the directory $LATCHPEBBLE_ARCHIVE, or the repository's
//! target/staticlib. A relative one is taken from this crate's directory.

use std::path::Path;

const VARIABLE: &str = "LATCHPEBBLE_ARCHIVE";
const BUILT: &str = "../../target/staticlib";
const ARCHIVE: &str = "libhost.a";

fn main() {
    println!("cargo::rerun-if-env-changed={VARIABLE}");
    let directory = std::env::var(VARIABLE).unwrap_or_else(|_| BUILT.into());
    let archive = Path::new(&directory).join(ARCHIVE);
    println!("cargo::rerun-if-changed={}", archive.display());
    match archive.canonicalize() {
        Ok(found) => println!("cargo::rustc-link-search=native={}", found.parent().unwrap_or(&found).display()),
        Err(error) => println!(
            "cargo::error=no archive at {}: {error}. Run `tools/calls --build port` in the repository, or set {VARIABLE} to \
             the directory of a {ARCHIVE}.",
            archive.display()
        ),
    }
}

//! Build script: names the static archive `lanes` to the linker when a feature asks for it.

use std::env;
use std::path::PathBuf;

fn main() {
    println!("cargo::rerun-if-env-changed=LANES_LIB");
    println!("cargo::rerun-if-changed=build.rs");
    if env::var_os("CARGO_FEATURE_LIBRARY").is_none() {
        return;
    }
    let folder = env::var_os("LANES_LIB").map_or_else(beside, PathBuf::from);
    println!("cargo::rerun-if-changed={}", folder.join("liblanes.a").display());
    println!("cargo::rustc-link-search=native={}", folder.display());
    println!("cargo::rustc-link-lib=static=lanes");
}

/// Where the repository's own build leaves the archive.
fn beside() -> PathBuf {
    let here = env::var_os("CARGO_MANIFEST_DIR").expect("cargo names the package's folder");
    PathBuf::from(here).join("../target/staticlib")
}

//! Links libspeltfeather.a: from SPELTFEATHER_LIB_DIR if that is set, else from where `make lib` puts
//! it in this repository.

use std::env;
use std::path::{Path, PathBuf};

fn main() {
    println!("cargo::rerun-if-changed=build.rs");
    println!("cargo::rerun-if-env-changed=SPELTFEATHER_LIB_DIR");
    let directory = directory();
    let archive = directory.join("libspeltfeather.a");
    println!("cargo::rerun-if-changed={}", archive.display());
    if !archive.is_file() {
        println!(
            "cargo::error={} is missing: run `make lib` at the root of the repository first, \
             or set SPELTFEATHER_LIB_DIR to the directory that holds it",
            archive.display()
        );
        return;
    }
    println!("cargo::rustc-link-search=native={}", directory.display());
    println!("cargo::rustc-link-lib=static=speltfeather");
}

/// The directory of the archive; a relative one is taken from this package.
fn directory() -> PathBuf {
    let package = env::var_os("CARGO_MANIFEST_DIR").expect("set by cargo");
    let given = env::var_os("SPELTFEATHER_LIB_DIR");
    Path::new(&package).join(given.unwrap_or("../../target/staticlib".into()))
}

//! What programs in C are built from.

use std::env;
use std::fs;
use std::path::{Path, PathBuf};
use std::process::{Command, Stdio};

/// The root of the repository.
pub fn root() -> PathBuf {
    Path::new(env!("CARGO_MANIFEST_DIR")).join("../..")
}

/// The directory of the header.
pub fn include() -> PathBuf {
    root().join("include")
}

/// A program of these tests.
pub fn source(name: &str) -> PathBuf {
    root().join("rust/tests/c").join(name)
}

/// The program in C that README shows.
pub fn program_of_readme() -> String {
    let readme = fs::read_to_string(root().join("README.md")).expect("README.md");
    let (_, rest) = readme.split_once("```c\n").expect("a C program");
    rest.split_once("```").expect("its end").0.to_string()
}

pub fn archive() -> PathBuf {
    let directory = env::var_os("SPELTFEATHER_LIB_DIR").map(PathBuf::from);
    directory
        .unwrap_or_else(|| root().join("target/staticlib"))
        .join("libspeltfeather.a")
}

/// Whether a program is installed, a compiler or another that says its version.
pub fn is_found(program: &str) -> bool {
    let silent = || Stdio::null();
    Command::new(program)
        .arg("--version")
        .stdout(silent())
        .stderr(silent())
        .status()
        .is_ok_and(|status| status.success())
}

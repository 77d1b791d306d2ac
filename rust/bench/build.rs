//! Compiles plain.c, once for each scrambler, with its tables written out as a header.

use std::env;
use std::fmt::Display;
use std::fs;
use std::path::{Path, PathBuf};
use std::process::Command;

/// Terms of the Gold sequence that the scrambler makes in one step.
const SCRAMBLERS: [u32; 2] = [1, 16];

fn main() {
    let package = PathBuf::from(variable("CARGO_MANIFEST_DIR"));
    let out = PathBuf::from(variable("OUT_DIR"));
    let source = package.join("c/plain.c");
    let include = package.join("../../include");
    println!("cargo::rerun-if-changed=build.rs");
    println!("cargo::rerun-if-changed={}", source.display());
    println!("cargo::rerun-if-changed={}", include.display());
    println!("cargo::rerun-if-env-changed=CC");

    fs::write(out.join("tables.h"), tables()).expect("the tables can be written");
    for terms in SCRAMBLERS {
        let object = out.join(format!("plain_{terms}.o"));
        compile(&source, &object, &[&include, &out], terms);
        println!("cargo::rustc-link-arg-bins={}", object.display());
    }
}

fn variable(name: &str) -> String {
    env::var(name).unwrap_or_else(|_| panic!("cargo sets {name}"))
}

fn compile(source: &Path, object: &Path, includes: &[&Path], terms: u32) {
    let compiler = env::var("CC").unwrap_or_else(|_| "cc".into());
    let status = Command::new(&compiler)
        .args(["-std=c99", "-O3", "-Wall", "-Wextra", "-pedantic", "-c"])
        .args(includes.iter().map(|path| format!("-I{}", path.display())))
        .arg(format!("-DPLAIN_ENCODE=plain_encode_{terms}"))
        .arg(format!("-DPLAIN_DECODE=plain_decode_{terms}"))
        .arg(format!("-DPLAIN_SCRAMBLER={terms}"))
        .arg("-o")
        .args([object, source])
        .status()
        .unwrap_or_else(|error| panic!("{compiler} cannot be run: {error}"));
    assert!(status.success(), "{compiler} fails on {}", source.display());
}

fn tables() -> String {
    let reliability = reference::construction::reliability();
    let below: Vec<&usize> = reliability.iter().filter(|&&i| i < 512).collect();
    [
        table("uint16_t RELIABILITY", &below),
        table("uint8_t INTERLEAVER", reference::interleaver::table()),
        table("uint8_t SUB_BLOCKS", &reference::rate_matching::SUB_BLOCKS),
        // The register after the 24 ones in front: the parity of nothing.
        format!(
            "static const uint32_t PARITY_OF_ONES = {};\n",
            reference::parity::parity(&[])
        ),
    ]
    .concat()
}

fn table<T: Display>(declaration: &str, entries: &[T]) -> String {
    let listed: Vec<String> = entries.iter().map(T::to_string).collect();
    format!(
        "static const {declaration}[] = {{{}}};\n",
        listed.join(", ")
    )
}

//! The boundary, from C: buffers with exactly the room that they need, beside pages that cannot be
//! accessed, with the sanitizers and with valgrind; and what the calls take of the stack.
//!
//! The sanitizers watch what the program and memcpy and memset do, valgrind and the pages what the
//! archive does as well.

use conformance::built::{archive, include, is_found, source};
use std::io::Write;
use std::path::{Path, PathBuf};
use std::process::Command;

/// The programs: the calls of one message, and the search.
const PROGRAMS: [&str; 2] = ["boundary", "search"];

/// Builds a program with every warning an error; `with` tells its builds apart.
fn build(name: &str, with: &str, flags: &[&str]) -> PathBuf {
    let program = Path::new(env!("CARGO_TARGET_TMPDIR")).join(format!("{name}_{with}"));
    let status = Command::new("cc")
        .args(["-std=c99", "-O1", "-g", "-pthread"])
        .args(["-Wall", "-Wextra", "-Wconversion", "-pedantic", "-Werror"])
        .args(flags)
        .arg("-I")
        .arg(include())
        .arg(source(&format!("{name}.c")))
        .arg(archive())
        .arg("-o")
        .arg(&program)
        .status()
        .expect("a compiler");
    assert!(status.success(), "cc builds {name} with {flags:?}");
    program
}

/// Runs the program; it must say that all its calls went as expected. Gives how many they were.
fn calls_of(command: &mut Command) -> usize {
    let output = command.output().expect("the program runs");
    let said = String::from_utf8(output.stdout).expect("text");
    let wrong = String::from_utf8_lossy(&output.stderr);
    println!("{command:?}\n{said}");
    assert!(output.status.success(), "{}: {wrong}", output.status);
    let last = said.lines().last().unwrap_or_default();
    let calls = last.strip_suffix(" calls, all as expected");
    let calls = calls.unwrap_or_else(|| panic!("{last}: {wrong}"));
    calls.parse().expect("a number")
}

/// Makes the calls that are fixed and so many random ones, each with its buffers at four places.
fn assert_calls(command: &mut Command, random: usize) {
    command.arg("calls").arg(random.to_string());
    assert!(calls_of(command) >= 7_000 + 4 * random);
}

#[test]
fn pages_without_access() {
    for (name, random) in PROGRAMS.into_iter().zip([20_000, 10_000]) {
        let program = build(name, "plain", &[]);
        assert_calls(&mut Command::new(program), random);
    }
}

#[test]
fn sanitizers() {
    let flags = ["-fsanitize=address,undefined", "-fno-sanitize-recover=all"];
    for (name, random) in PROGRAMS.into_iter().zip([10_000, 5_000]) {
        let mut command = Command::new(build(name, "sanitized", &flags));
        // Leaks are left to valgrind: looking for them needs rights that a container may not have.
        command.env("ASAN_OPTIONS", "detect_leaks=0");
        assert_calls(&mut command, random);
    }
}

#[test]
fn valgrind() {
    if !is_found("valgrind") {
        // Not through println, which is shown only for tests that fail.
        let mut shown = std::io::stderr();
        writeln!(shown, "\nSKIPPED: valgrind is not installed\n").expect("a place to say so");
        return;
    }
    for (name, random) in PROGRAMS.into_iter().zip([500, 100]) {
        let program = build(name, "valgrind", &[]);
        let mut command = Command::new("valgrind");
        command.args(["--quiet", "--error-exitcode=9", "--leak-check=full"]);
        assert_calls(command.arg(program), random);
    }
}

#[test]
fn stack() {
    for name in PROGRAMS {
        let program = build(name, "stack", &[]);
        assert!(calls_of(Command::new(program).arg("stack")) >= 200);
    }
}

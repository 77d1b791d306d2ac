//! What a user does first: `make`, `make install`, then the C example built by its one line.

use conformance::built::{program_of_readme, root};
use std::env;
use std::fs;
use std::os::unix::fs::PermissionsExt;
use std::path::{Path, PathBuf};
use std::process::Command;

/// A directory of this test's own, empty.
fn room(name: &str) -> PathBuf {
    let room = Path::new(env!("CARGO_TARGET_TMPDIR")).join(name);
    let _ = fs::remove_dir_all(&room);
    fs::create_dir_all(&room).expect("a directory can be made");
    room
}

fn run(command: &mut Command) -> String {
    let output = command.output().expect("the command can be run");
    let errors = String::from_utf8_lossy(&output.stderr);
    assert!(output.status.success(), "{command:?}: {errors}");
    String::from_utf8(output.stdout).expect("text")
}

/// Make at the root of the repository, as if no other make had started this test.
fn make() -> Command {
    let mut make = Command::new("make");
    make.current_dir(root());
    make.env_remove("MAKEFLAGS").env_remove("MAKELEVEL");
    make
}

/// Makes a target without building the archive anew, which takes the prover.
fn made(target: &str, prefix: &Path) {
    let prefix = format!("PREFIX={}", prefix.display());
    run(make().args(["-o", "target/staticlib/libspeltfeather.a", target, &prefix]));
}

fn pkg_config(prefix: &Path, what: &[&str]) -> Vec<String> {
    let mut command = Command::new("pkg-config");
    command.env("PKG_CONFIG_PATH", prefix.join("lib/pkgconfig"));
    let said = run(command.args(what).arg("speltfeather"));
    said.split_whitespace().map(str::to_string).collect()
}

fn files_in(directory: &Path) -> usize {
    let entries = fs::read_dir(directory).expect("a directory");
    let paths = entries.map(|entry| entry.expect("an entry").path());
    let count = |path: PathBuf| if path.is_dir() { files_in(&path) } else { 1 };
    paths.map(count).sum()
}

/// Builds a C program with what is installed, every warning an error, and gives what it prints.
fn built(source: &Path, prefix: &Path) -> String {
    let program = source.with_extension("program");
    let warnings = ["-std=c99", "-pedantic", "-Wall", "-Wextra", "-Werror"];
    let mut compile = Command::new(env::var("CC").unwrap_or("cc".into()));
    compile.args(warnings).arg(source);
    compile.args(pkg_config(prefix, &["--cflags", "--libs"]));
    run(compile.arg("-o").arg(&program));
    run(&mut Command::new(&program))
}

/// Asserts that anyone may run the command, and that it is of this release and codes.
fn assert_command(dci: &Path) {
    let mode = fs::metadata(dci).expect("the command").permissions().mode();
    assert_eq!(mode & 0o7777, 0o755);
    let release = run(Command::new(dci).arg("version"));
    assert_eq!(release, format!("dci {}\n", env!("CARGO_PKG_VERSION")));
    let numbers = "encode --size 12 --level 1 --rnti 1 --id 2 --payload 0b0";
    let coded = run(Command::new(dci).args(numbers.split(' ')));
    assert_eq!(coded.trim().len(), 108 / 4);
}

#[test]
fn what_is_installed_builds_the_examples() {
    let (prefix, room) = (room("prefix"), room("examples"));
    made("install", &prefix);
    assert_eq!(files_in(&prefix), 4);
    assert_command(&prefix.join("bin/dci"));
    assert_eq!(
        pkg_config(&prefix, &["--modversion"]),
        [env!("CARGO_PKG_VERSION")]
    );

    let examples = [
        ("roundtrip.c", "31 of 216 soft values\n"),
        ("search.c", "56 of 432 soft values wrong\n"),
    ];
    for (name, noise) in examples {
        let example = room.join(name);
        fs::copy(root().join("examples/c").join(name), &example).expect("the example");
        let said = built(&example, &prefix);
        assert!(said.contains(noise), "{said}");
        assert!(said.ends_with("another RNTI: no message\n"), "{said}");
    }
    let shown = room.join("readme.c");
    fs::write(&shown, program_of_readme()).expect("a file");
    assert_eq!(
        built(&shown, &prefix),
        "a message, 1 of 432 soft values wrong\ncandidate 1\n"
    );

    made("uninstall", &prefix);
    assert_eq!(files_in(&prefix), 0);
}

#[test]
fn each_target_is_listed() {
    let makefile = fs::read_to_string(root().join("Makefile")).expect("the Makefile");
    let phony = makefile
        .lines()
        .find_map(|line| line.strip_prefix(".PHONY:"));
    let listed = run(make().arg("help"));
    for target in phony.expect("the targets").split_whitespace() {
        let is_listed = |line: &str| line.split_whitespace().nth(1) == Some(target);
        assert!(listed.lines().any(is_listed), "make {target}");
    }
}

/// A directory with these programs and no others.
fn programs(names: &[&str]) -> PathBuf {
    let room = room("programs");
    let path = env::var_os("PATH").expect("a PATH");
    for name in names {
        let mut found = env::split_paths(&path).map(|directory| directory.join(name));
        let found = found.find(|file| file.is_file()).expect("the program");
        // A copy, since rt refuses links below the repository.
        fs::copy(found, room.join(name)).expect("a copy");
    }
    room
}

#[test]
fn without_the_toolchain_make_says_what_is_needed() {
    let path = programs(&["make", "bash", "sed", "find"]);
    for target in ["lib", "demo", "dci", "install", "test"] {
        // Nothing is run, whatever is found; the archive counts as older than its sources.
        let mut make = make();
        make.args(["-n", "-W", "crates.txt", target]);
        let output = make.env("PATH", &path).output().expect("make can be run");
        let said = String::from_utf8_lossy(&output.stderr);
        assert!(!output.status.success(), "{target}");
        assert!(output.stdout.is_empty(), "{target}");
        assert_eq!(said.lines().count(), 1, "{target}: {said}");
        let named = ["rt", "Rattle toolchain", "rattle-kit-13f"];
        assert!(named.iter().all(|word| said.contains(word)), "{said}");
    }
}

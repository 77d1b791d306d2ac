//! How the command is run.

use std::ffi::OsString;
use std::io::Write;
use std::process::{Command, Stdio};

pub const PROGRAM: &str = env!("CARGO_BIN_EXE_dci");
pub const NUMBERS: &str = "--size 37 --length 432 --rnti 0xffff --id 1";
pub const SIB1: &str = "--payload 5400a00000";

/// What a run gave: exit status, standard output and standard error.
pub struct Run {
    pub status: i32,
    pub out: String,
    pub err: String,
}

/// Runs a command to its end with this input.
pub fn run(command: &mut Command, input: &str) -> Run {
    let mut child = command
        .stdin(Stdio::piped())
        .stdout(Stdio::piped())
        .stderr(Stdio::piped())
        .spawn()
        .expect("the command can be run");
    // A command that does not read its input may end before it is written.
    let _ = child
        .stdin
        .take()
        .expect("a pipe")
        .write_all(input.as_bytes());
    let output = child.wait_with_output().expect("the command ends");
    Run {
        status: output.status.code().expect("an exit status"),
        out: String::from_utf8(output.stdout).expect("text"),
        err: String::from_utf8(output.stderr).expect("text"),
    }
}

/// The words of a line that has no spaces in them.
pub fn words(line: &str) -> Vec<OsString> {
    line.split_whitespace().map(OsString::from).collect()
}

/// Runs `dci` with the words of a line, and one more if it is given.
pub fn dci(line: &str, last: Option<OsString>, input: &str) -> Run {
    let mut command = Command::new(PROGRAM);
    run(command.args(words(line)).args(last), input)
}

/// Runs a line of the shell, in which `dci` is the command.
pub fn shell(line: &str) -> Run {
    let line = format!("dci() {{ '{PROGRAM}' \"$@\"; }}; {line}");
    run(Command::new("sh").args(["-c", &line]), "")
}

/// What a run prints that must go well.
pub fn printed(line: &str, input: &str) -> String {
    let run = dci(line, None, input);
    assert_eq!((run.status, &run.err[..]), (0, ""), "{line}");
    run.out
}

/// Asserts that a run printed nothing, ended with that status and said all of this.
pub fn assert_said(run: &Run, line: &str, status: i32, said: &[&str]) {
    let Run { out, err, .. } = run;
    assert_eq!((run.status, &out[..]), (status, ""), "{line}: {err}");
    for words in said {
        assert!(err.contains(words), "{line}: {err}");
    }
}

/// Asserts that a line is refused with that status, and what is said.
pub fn assert_refused(line: &str, input: &str, status: i32, said: &[&str]) {
    assert_said(&dci(line, None, input), line, status, said);
}

/// The recorded message as soft values.
pub fn soft_row() -> String {
    printed(&format!("encode {NUMBERS} {SIB1} --as soft"), "")
}

/// What is printed where the noise count stands below a payload.
pub fn with_noise(payload: &str, count: usize, values: usize) -> String {
    format!("{payload}\nnoise count              {count} of {values} soft values\n")
}

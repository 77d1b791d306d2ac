//! What README shows of the command is what it prints.

use cli::answers::ANSWERS;
use std::env;
use std::fs;
use std::path::{Path, PathBuf};
use std::process::Command;

fn repository() -> PathBuf {
    Path::new(env!("CARGO_MANIFEST_DIR")).join("../..")
}

fn readme() -> String {
    fs::read_to_string(repository().join("README.md")).expect("README.md")
}

/// The commands of README's session, each with what it prints.
fn session() -> Vec<(String, String)> {
    let readme = readme();
    let (_, rest) = readme.split_once("```console\n").expect("a session");
    let (session, _) = rest.split_once("```").expect("its end");
    let entry = |entry: &str| {
        let (command, printed) = entry.split_once('\n').expect("a line");
        (command.to_string(), printed.trim().to_string())
    };
    session.split("$ ").skip(1).map(entry).collect()
}

/// Runs a line in a shell that finds `dci`, and gives all that it prints.
fn printed(line: &str, room: &Path) -> String {
    let programs = Path::new(env!("CARGO_BIN_EXE_dci")).parent();
    let mut path = programs.expect("a directory").as_os_str().to_owned();
    path.push(":");
    path.push(env::var_os("PATH").unwrap_or_default());
    let mut shell = Command::new("sh");
    let shell = shell.current_dir(room).env("PATH", path);
    let output = shell.args(["-c", &format!("{line} 2>&1")]).output();
    let output = output.expect("a shell").stdout;
    String::from_utf8(output).expect("text").trim().to_string()
}

#[test]
fn the_session_is_true() {
    let room = Path::new(env!("CARGO_TARGET_TMPDIR")).join("session");
    fs::create_dir_all(&room).expect("a directory");
    let session = session();
    for command in ["dci encode", "dci decode", "dci search", "--report"] {
        let is_shown = session.iter().any(|(line, _)| line.contains(command));
        assert!(is_shown, "{command}");
    }
    for (line, shown) in session {
        assert_eq!(printed(&line, &room), shown, "{line}");
    }
}

#[test]
fn the_tables_of_answers_agree() {
    let header = repository().join("include/speltfeather.h");
    let header = fs::read_to_string(header).expect("the header");
    let readme = readme();
    for answer in &ANSWERS {
        let (number, c, rust) = (answer.number, answer.c, answer.rust);
        assert!(header.contains(&format!("{c} = {number}")), "{c}");
        let head = format!("| {number} |");
        let row = readme.lines().find(|line| line.starts_with(&head));
        let row = row.expect("a row of README");
        assert!(row.ends_with(&format!("| `{c}` | `{rust}` |")), "{row}");
    }
}

//! Files of soft values, their names, and what an error shows of them.

use crate::run::{
    NUMBERS, PROGRAM, Run, assert_refused, assert_said, dci, printed, run, soft_row, words,
};
use std::ffi::{OsStr, OsString};
use std::fs;
use std::os::unix::ffi::OsStrExt;
use std::path::{Path, PathBuf};
use std::process::Command;

/// A directory of one test's own, with a row of soft values under that name.
fn room_with(test: &str, name: &OsStr) -> PathBuf {
    let room = Path::new(env!("CARGO_TARGET_TMPDIR")).join(test);
    fs::create_dir_all(&room).expect("a directory");
    fs::write(room.join(name), soft_row()).expect("a file for the row");
    room
}

#[test]
fn a_name_need_not_be_text() {
    for name in [&b"row.txt"[..], b"a row.txt", b"r\xf6w\xff.txt"] {
        let name = OsStr::from_bytes(name);
        let file = room_with("names", name).join(name);
        let run = dci(&format!("decode {NUMBERS}"), Some(file.into()), "");
        assert_eq!((run.status, &run.out[..]), (0, "5400a00000\n"), "{name:?}");
    }
    let missing = OsStr::from_bytes(b"no/such/\xff").to_owned();
    let line = format!("decode {NUMBERS}");
    let run = dci(&line, Some(missing), "");
    assert_said(&run, &line, 66, &["no/such/", "soft values"]);
}

/// Runs `dci decode` where a row has that name.
fn decoded_beside(name: &str, more: &str) -> Run {
    let mut command = Command::new(PROGRAM);
    command.current_dir(room_with("dashes", name.as_ref()));
    let line = format!("decode {NUMBERS} {more}");
    run(command.args(words(&line)), "")
}

#[test]
fn behind_two_dashes_a_name_may_begin_with_one() {
    for name in [
        "-row.txt", "--size", "--report", "--help", "-h", "--", "row.txt",
    ] {
        let run = decoded_beside(name, &format!("-- {name}"));
        assert_eq!((run.status, &run.out[..]), (0, "5400a00000\n"), "{name}");
    }
    let line = format!("decode {NUMBERS} -- -");
    assert_eq!(printed(&line, &soft_row()), "5400a00000\n");
    let line = format!("decode {NUMBERS} --");
    assert_eq!(printed(&line, &soft_row()), "5400a00000\n");
    let said = ["-row.txt is not an option"];
    assert_said(&decoded_beside("-row.txt", "-row.txt"), "", 64, &said);
    assert_refused(&format!("decode {NUMBERS} -- a b"), "", 64, &["`b`"]);
    assert_refused("info -- --size 12", "", 64, &["`--size`"]);
}

#[test]
fn soft_values_may_stand_as_other_programs_print_them() {
    let decode = format!("decode {NUMBERS}");
    let row = soft_row();
    let values: Vec<&str> = row.split_whitespace().collect();
    for text in [
        format!("\u{feff}{row}"),
        format!("\u{feff}# a row\r\n{}", values.join("\r\n")),
        format!("[{}]", values.join(", ")),
        format!("({});", values.join(";")),
        format!("{{ {{{}}} }}", values.join("},\n {")),
        format!(
            "[[{}]\n [{}]]",
            values[..9].join(" "),
            values[9..].join(" ")
        ),
    ] {
        assert_eq!(printed(&decode, &text), "5400a00000\n", "{text}");
    }
}

/// Asserts that what is said is short and has nothing in it that a terminal would act on.
fn assert_harmless(run: &Run, what: &str) {
    assert_ne!(run.status, 0, "{what}");
    assert!(run.err.len() < 500, "{what}: {} bytes", run.err.len());
    assert!(run.err.lines().count() <= 2, "{what}: {}", run.err);
    let control = |c: char| c.is_control() && c != '\n';
    assert!(!run.err.contains(control), "{what}: {:?}", run.err);
}

#[test]
fn errors_show_little_and_nothing_that_a_terminal_acts_on() {
    let wild = format!("x\u{1b}[2J\u{7}\r\n\u{9b}\u{202e}{}", "y".repeat(9999));
    let decode = format!("decode {NUMBERS}");
    let encode = format!("encode {NUMBERS} --payload");
    for (line, last) in [
        ("", wild.clone()),
        ("help", wild.clone()),
        ("info", wild.clone()),
        ("info", format!("--{wild}")),
        ("info --size", wild.clone()),
        ("info --size 12 --length 108 --as", wild.clone()),
        ("info --size 12 --level", wild.clone()),
        ("decode -- a", wild.clone()),
        (&decode, wild.clone()),
        ("search --id 1 --candidates", wild.clone()),
        ("search --id 1 --candidates /dev/null", wild.clone()),
        (&encode, wild.clone()),
        (&encode, format!("5400a0000{}", "0".repeat(9999))),
    ] {
        let run = dci(line, Some(OsString::from(&last)), "");
        assert_harmless(&run, line);
    }
    let run = dci(&decode, None, &wild.replace(['[', '\r', '\n'], ""));
    assert_harmless(&run, "soft values");
    let said = ["line 1: `x\\u{1b}2J\\u{7}", "yyy...`"];
    assert_said(&run, "soft values", 66, &said);
    assert_harmless(&dci(&decode, None, &"\0".repeat(9999)), "zeros");
    let search = "search --id 1 --candidates - /dev/null";
    for list in [
        wild.replace(['[', '\r', '\n'], ""),
        "3 ".repeat(99_999),
        "0 3 9 9\n".repeat(44),
    ] {
        assert_harmless(&dci(search, None, &list), "a list");
    }
}

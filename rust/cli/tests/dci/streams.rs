//! Standard streams that are closed, full, or without an end.

use crate::run::{NUMBERS, PROGRAM, SIB1, assert_said, printed, shell, soft_row, words};
use std::io::Write;
use std::process::{Command, Stdio};

fn each_that_prints() -> [String; 5] {
    [
        format!("encode {NUMBERS} {SIB1}"),
        "info --size 12 --length 108".into(),
        "answers".into(),
        "help".into(),
        "version".into(),
    ]
}

#[test]
fn what_is_not_printed_is_not_done() {
    for command in each_that_prints() {
        // Closed, full, and open for reading alone.
        for output in [">&-", ">/dev/full", "1</dev/null"] {
            let line = format!("dci {command} {output}");
            let said = ["standard output cannot be written"];
            assert_said(&shell(&line), &line, 66, &said);
            let unsaid = format!("{line} 2>&-");
            assert_said(&shell(&unsaid), &unsaid, 66, &[]);
        }
    }
}

#[test]
fn what_is_thrown_away_is_done() {
    for command in each_that_prints() {
        for output in [">/dev/null", "1<>/dev/null", "<&-", "2>&-", "2>/dev/full"] {
            let line = format!("dci {command} {output}");
            let run = shell(&line);
            assert_eq!((run.status, &run.err[..]), (0, ""), "{line}");
            assert_eq!(run.out.is_empty(), output.ends_with("null"), "{line}");
        }
    }
}

#[test]
fn the_status_is_the_answer_whether_or_not_it_can_be_said() {
    let zeros = "0 ".repeat(432);
    let cases = [
        (format!("encode {NUMBERS} --payload 1"), 4),
        (format!("encode {NUMBERS} --payload {}2", "0".repeat(36)), 6),
        ("info --size 11 --length 108".into(), 1),
        ("info --size 12".into(), 64),
        ("nothing".into(), 64),
        ("".into(), 64),
        (format!("decode {NUMBERS} no/such/file"), 66),
        ("search --id 1 --candidates /dev/null /dev/null".into(), 8),
    ];
    let errors = ["2>&-", "2>/dev/full", "2</dev/null", ">&- 2>&-"];
    for error in errors
        .into_iter()
        .chain([">/dev/full 2>/dev/full", "<&- >&- 2>&-"])
    {
        for (command, status) in &cases {
            let line = format!("dci {command} {error}");
            assert_said(&shell(&line), &line, *status, &[]);
        }
        let error = error.trim_start_matches("<&-");
        let line = format!("echo {zeros} | dci decode {NUMBERS} {error}");
        assert_said(&shell(&line), &line, 7, &[]);
    }
}

#[test]
fn a_reader_that_stops_hears_no_complaint() {
    let mut child = Command::new(PROGRAM)
        .args(words(&format!("decode {NUMBERS}")))
        .stdin(Stdio::piped())
        .stdout(Stdio::piped())
        .stderr(Stdio::piped())
        .spawn()
        .expect("dci can be run");
    // It prints when its input has ended; by then no one reads.
    drop(child.stdout.take());
    let mut input = child.stdin.take().expect("a pipe");
    input.write_all(soft_row().as_bytes()).expect("it reads");
    drop(input);
    let output = child.wait_with_output().expect("dci ends");
    assert_eq!(output.status.code(), Some(66));
    assert!(output.stderr.is_empty());
}

#[test]
fn a_closed_input_is_no_empty_row() {
    for input in ["<&-", "0>/dev/null"] {
        let line = format!("dci decode {NUMBERS} {input}");
        let said = ["standard input: expected a file of soft values"];
        assert_said(&shell(&line), &line, 66, &said);
    }
    let line = "dci search --id 1 --candidates - /dev/null <&-";
    let said = ["standard input: expected a file of candidates"];
    assert_said(&shell(line), line, 66, &said);
    let line = format!("dci decode {NUMBERS} </dev/null");
    assert_said(&shell(&line), &line, 4, &["0 soft values"]);
}

#[test]
fn an_input_without_an_end_is_left() {
    let said = ["expected a file of soft values", "more than 1048576 bytes"];
    let decode = format!("dci decode {NUMBERS}");
    for line in [
        format!("{decode} /dev/zero"),
        format!("{decode} </dev/zero"),
        format!("yes | {decode}"),
        format!("yes 1 | {decode} -"),
        "yes 1 | dci search --id 1 --candidates /dev/null".into(),
    ] {
        // Memory for the command and not for much more.
        let line = format!("ulimit -v 100000; {line}");
        assert_said(&shell(&line), &line, 66, &said);
    }
}

#[test]
fn an_input_may_be_as_long_as_is_said() {
    let decode = format!("decode {NUMBERS}");
    let row = soft_row();
    let longest = format!("{row}#{}", "x".repeat((1 << 20) - row.len() - 1));
    assert_eq!(printed(&decode, &longest), "5400a00000\n");
    let run = crate::run::dci(&decode, None, &format!("{longest}x"));
    assert_said(&run, "one byte more", 66, &["more than 1048576 bytes"]);
}

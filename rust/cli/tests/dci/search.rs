//! The search of a region: what is found and shown, and what is wrong with a region or a list.

use crate::SIB1_BITS;
use crate::run::{PROGRAM, Run, assert_refused, assert_said, printed, run, with_noise, words};
use std::ffi::{OsStr, OsString};
use std::fs;
use std::os::unix::ffi::{OsStrExt, OsStringExt};
use std::path::{Path, PathBuf};
use std::process::Command;

/// The messages of a region of 16 CCEs: at CCE 1, at CCEs 4 to 7, 8 to 9 and 10 to 11, each with its
/// numbers and its payload. The last is in a user-specific space.
const MESSAGES: [(usize, &str, &str); 4] = [
    (1, "--size 40 --level 1 --rnti 0x4601", "0123456789"),
    (4, "--size 37 --level 4 --rnti 0xffff", "5400a00000"),
    (8, "--size 12 --level 2 --rnti 7", "abc"),
    (
        10,
        "--size 40 --level 2 --rnti 0x4601 --n-rnti 0x5702",
        "fedcba9876",
    ),
];
const SIB1: &str = "4 4 37 0xffff\n";
pub const SEARCH: &str = "search --id 500 --candidates list.txt region.txt";

/// The region as text: a line for each CCE, zeros where there is no message.
pub fn region() -> Vec<String> {
    let mut cces = vec!["0 ".repeat(108); 16];
    for (first, numbers, payload) in MESSAGES {
        let line = format!("encode {numbers} --id 500 --payload {payload} --as soft");
        let soft = printed(&line, "");
        let values: Vec<&str> = soft.split_whitespace().collect();
        for (cce, values) in cces[first..].iter_mut().zip(values.chunks(108)) {
            *cce = values.join(" ");
        }
    }
    cces
}

/// A directory of one test's own, with the region and this list.
pub fn room(test: &str, region: &[String], list: &str) -> PathBuf {
    let room = Path::new(env!("CARGO_TARGET_TMPDIR")).join(format!("search-{test}"));
    fs::create_dir_all(&room).expect("a directory");
    fs::write(room.join("region.txt"), region.join("\n")).expect("a file for the region");
    fs::write(room.join("list.txt"), list).expect("a file for the list");
    room
}

/// Runs a line of words in a room.
pub fn run_in(room: &Path, line: &str, input: &str) -> Run {
    let mut command = Command::new(PROGRAM);
    run(command.current_dir(room).args(words(line)), input)
}

/// Runs the search of that region for that list.
fn searched(test: &str, region: &[String], list: &str) -> Run {
    run_in(&room(test, region, list), SEARCH, "")
}

pub fn assert_printed(run: &Run, printed: &str) {
    let Run { status, out, err } = run;
    assert_eq!((*status, &out[..], &err[..]), (0, printed, ""));
}

#[test]
fn the_candidate_found_is_shown() {
    let list = "# first CCE, level, A, RNTI, n_RNTI\n\n0 4 37 0xffff 7\n[4, 4, 37, 65535] # SIB1\n\
                8 2 12 7\n";
    let room = room("shown", &region(), list);
    let table = "\
candidate                1, counted from 0: line 4 of list.txt
first CCE                4
aggregation level        4
payload size A           37
RNTI                     0xffff
n_RNTI                   0x0000
payload                  5400a00000
CCEs                     4-7
soft values              432-863
noise count              0 of 432 soft values
";
    assert_printed(&run_in(&room, SEARCH, ""), table);
    for (form, shown) in [
        ("table", table),
        (
            "csv",
            "candidate,line,first_cce,last_cce,level,size,rnti,n_rnti,payload,first_value,last_value,\
             noise\n1,4,4,7,4,37,0xffff,0x0000,5400a00000,432,863,0\n",
        ),
        ("hex", &with_noise("5400a00000", 0, 432)),
        ("bits", &with_noise(SIB1_BITS, 0, 432)),
    ] {
        assert_printed(&run_in(&room, &format!("{SEARCH} --as {form}"), ""), shown);
    }
    let other = run_in(&room, &format!("{SEARCH} --as octal"), "");
    assert_said(
        &other,
        "octal",
        64,
        &["--as octal", "table, csv, hex or bits"],
    );
}

#[test]
fn each_message_is_found_by_its_own_numbers() {
    let region = region();
    for (list, shown) in [
        (
            "1 1 40 0x4601",
            "0,1,1,1,1,40,0x4601,0x0000,0123456789,108,215,0",
        ),
        (
            "1 1 40 17921 0",
            "0,1,1,1,1,40,0x4601,0x0000,0123456789,108,215,0",
        ),
        (
            "0x4 0X4 0x25 0xFFFF 0X8000",
            "0,1,4,7,4,37,0xffff,0x8000,5400a00000,432,863,0",
        ),
        ("8 2 12 7", "0,1,8,9,2,12,0x0007,0x0000,abc,864,1079,0"),
        (
            "8 2 12 7\n1 1 40 0x4601",
            "0,1,8,9,2,12,0x0007,0x0000,abc,864,1079,0",
        ),
        (
            "1 1 40 0x4601\n8 2 12 7",
            "0,1,1,1,1,40,0x4601,0x0000,0123456789,108,215,0",
        ),
        (
            "10 2 40 0x4601 22274",
            "0,1,10,11,2,40,0x4601,0x5702,fedcba9876,1080,1295,0",
        ),
    ] {
        let room = room("each", &region, list);
        let run = run_in(&room, &format!("{SEARCH} --as csv"), "");
        assert_eq!((run.status, &run.err[..]), (0, ""), "{list}");
        assert_eq!(run.out.lines().nth(1), Some(shown), "{list}");
    }
}

#[test]
fn a_message_in_a_user_specific_space_is_found_by_its_n_rnti_alone() {
    let region = region();
    // Without n_RNTI, with that of another, with the RNTI in its place, and with a bit too many.
    let others = "10 2 40 0x4601\n10 2 40 0x4601 0x5703\n10 2 40 0x4601 0x4601\n\
                  10 2 40 0x4601 0x15702\n";
    let said =
        ["3 of 4 tried; not tried: line 4 of list.txt (n_RNTI 87810: expected 0 to 65535)\n"];
    assert_said(&searched("specific", &region, others), others, 8, &said);
    let list = format!("{others}10 2 40 0x4601 0x5702\n4 4 37 0xffff");
    let table = "\
candidate                4, counted from 0: line 5 of list.txt
first CCE                10
aggregation level        2
payload size A           40
RNTI                     0x4601
n_RNTI                   0x5702
payload                  fedcba9876
CCEs                     10-11
soft values              1080-1295
noise count              0 of 216 soft values
";
    assert_printed(&searched("specific", &region, &list), table);
}

#[test]
fn a_line_without_n_rnti_has_that_of_the_option() {
    let region = region();
    // The message to all is behind the handset's own, and has n_RNTI 0 in its line.
    let own = room("option", &region, "10 2 40 0x4601\n4 4 37 0xffff 0");
    let [specific, common] = [
        with_noise("fedcba9876", 0, 216),
        with_noise("5400a00000", 0, 432),
    ];
    for (option, payload) in [
        ("--n-rnti 0x5702", &specific),
        ("--n-rnti 0xd702", &specific),
        ("--n-rnti 0x5703", &common),
        ("--n-rnti 0", &common),
        ("", &common),
    ] {
        let line = format!("{SEARCH} --as hex {option}");
        assert_printed(&run_in(&own, &line, ""), payload);
    }
    // What a line has counts, and not the option.
    let both = room("both", &region, "10 2 40 0x4601 0\n4 4 37 0xffff 0x5702");
    let run = run_in(&both, &format!("{SEARCH} --n-rnti 0x5702"), "");
    assert_said(&run, "both", 8, &["2 of 2 tried"]);
}

#[test]
fn the_values_that_are_named_decode() {
    let region = region();
    let room = room("named", &region, "0 8 12 7\n8 2 12 7");
    let found = run_in(&room, &format!("{SEARCH} --as csv"), "").out;
    let fields: Vec<&str> = found.trim().rsplit(',').collect();
    let place = |field: &str| field.parse::<usize>().expect("a place");
    let (first, last) = (place(fields[2]), place(fields[1]));
    let values = region.join(" ");
    let values: Vec<&str> = values.split_whitespace().collect();
    let row = values[first..=last].join(" ");
    let decode = "decode --size 12 --level 2 --rnti 7 --id 500";
    assert_eq!(printed(decode, &row), "abc\n");
}

#[test]
fn either_may_come_from_standard_input() {
    let region = region();
    let room = room("input", &region, SIB1);
    let values = region.join("\n");
    for (line, input) in [
        ("--candidates - region.txt", SIB1),
        ("--candidates=- region.txt", SIB1),
        ("region.txt --candidates -", SIB1),
        ("--candidates list.txt", &values),
        ("--candidates list.txt -", &values),
    ] {
        let line = format!("search --id 500 --as hex {line}");
        let found = run_in(&room, &line, input);
        assert_printed(&found, &with_noise("5400a00000", 0, 432));
    }
    for more in ["", "-"] {
        let line = format!("search --id 500 --candidates - {more}");
        assert_refused(&line, SIB1, 64, &["both come from standard input"]);
    }
    let wrong = run_in(
        &room,
        "search --id 500 --candidates - region.txt",
        "\n4 4 37\n",
    );
    let said = ["standard input, line 2: 3 numbers: expected four or five"];
    assert_said(&wrong, "a wrong line", 66, &said);
}

/// Asserts that a list finds nothing in the region, and what is said of it.
fn assert_none_found(test: &str, region: &[String], list: &str, said: &str) {
    let answer = "dci search: answer 8: no candidate accepted: ";
    assert_said(&searched(test, region, list), list, 8, &[answer, said]);
}

#[test]
fn where_none_is_found_it_is_said_how_many_were_tried() {
    let region = region();
    for (list, said) in [
        ("4 4 37 0xfffe\n12 4 37 0xffff", "2 of 2 tried\n"),
        ("", "list.txt has none\n"),
        ("# nothing\n\n", "list.txt has none\n"),
        (
            "0 3 37 1",
            "0 of 1 tried; not tried: line 1 of list.txt (level 3: expected 1, 2, 4, 8 or 16)\n",
        ),
        (
            "0 0 37 1",
            "0 of 1 tried; not tried: line 1 of list.txt (level 0: ",
        ),
        (
            "0 1 37 1\n\n2 4 37 0xffff\n1 2 37 1",
            "1 of 3 tried; not tried: line 3 of list.txt (first CCE 2: expected a multiple of the \
             level, 4) and 1 more\n",
        ),
    ] {
        assert_none_found("none", &region, list, said);
    }
    let other = SEARCH.replace("500", "501");
    let room = room("none", &region, SIB1);
    assert_said(&run_in(&room, &other, ""), &other, 8, &["1 of 1 tried"]);
}

#[test]
fn numbers_that_no_message_has_are_named() {
    let region = region();
    for (list, said) in [
        (
            "16 16 37 1",
            "(first CCE 16 with level 16: the region has 16 CCEs)",
        ),
        (
            "4294967280 16 37 1",
            "(first CCE 4294967280 with level 16: the region has 16 CCEs)",
        ),
        ("4 4 37 0x1ffff", "(RNTI 131071: expected 0 to 65535)"),
        ("4 4 37 65536 65536", "(RNTI 65536: expected 0 to 65535)"),
        ("4 4 37 65535 65536", "(n_RNTI 65536: expected 0 to 65535)"),
        (
            "4 4 37 0xffff 0xffffffff",
            "(n_RNTI 4294967295: expected 0 to 65535)",
        ),
        ("4 4 11 0xffff", "(A 11: expected 12 to 140)"),
        (
            "4 4 4294967295 0xffff",
            "(A 4294967295: expected 12 to 140)",
        ),
        ("1 1 85 1", "(A 85: expected at most 84 at level 1)"),
    ] {
        assert_none_found("numbers", &region, list, said);
    }
}

#[test]
fn an_empty_region_has_no_candidate() {
    let run = searched("empty", &[], SIB1);
    assert_said(
        &run,
        "empty",
        8,
        &["first CCE 4 with level 4: the region has 0"],
    );
    assert!(!run.err.contains("bits?"), "{}", run.err);
    let bits = vec!["0 1 ".repeat(54); 4];
    let run = searched("empty", &bits, "0 4 37 0xffff");
    assert_said(&run, "bits", 8, &["1 of 1 tried", "are they bits?"]);
}

#[test]
fn a_value_out_of_range_bars_its_own_candidates_alone() {
    let mut region = region();
    // The second value of CCE 0; CCE 1 has a message.
    region[0] = region[0].replacen("0 0", "0 128", 1);
    assert!(region[0].starts_with("0 128 0"));
    let list = "0 2 40 0x4601\n1 1 40 0x4601";
    let room = room("range", &region, list);
    assert_printed(
        &run_in(&room, &format!("{SEARCH} --as hex"), ""),
        &with_noise("0123456789", 0, 108),
    );
    let run = searched("range", &region, "0 2 40 0x4601");
    let said = ["(soft value 1 of the region is 128, in its line 1: expected -127 to 127)"];
    assert_said(&run, "128", 8, &said);
    region[5] = region[5].replacen("64", "-128", 1);
    let run = searched("range", &region, SIB1);
    assert_said(&run, "-128", 8, &["of the region is -128, in its line 6"]);
}

#[test]
fn it_is_said_which_of_the_two_has_a_wrong_length() {
    let cce = region()[1].clone();
    let list = |count: usize| "0 1 40 1\n".repeat(count - 1) + "0 1 40 0x4601\n";
    let short = cce.rsplit_once(' ').expect("values").0.to_string();
    let long = format!("{cce} 1");
    let many = vec![cce.clone(); 65];
    let of_region = "108 for each of at most 64 CCEs, 6912 at most";
    let of_list = "list.txt has 45 candidates: expected at most 44";
    for (region, count, said) in [
        (
            &[short][..],
            1,
            &["the region has 107 soft values", of_region][..],
        ),
        (&[long], 1, &["the region has 109 soft values", of_region]),
        (&many, 1, &["the region has 7020 soft values", of_region]),
        (&many[..64], 45, &[of_list]),
        (&[], 45, &[of_list]),
        (&many, 45, &["the region has 7020", of_list]),
    ] {
        let run = searched("lengths", region, &list(count));
        assert_said(&run, said[0], 4, said);
        assert!(run.err.starts_with("dci search: answer 4: "), "{}", run.err);
        let both = run.err.contains("region") && run.err.contains("list.txt");
        assert_eq!(both, region.len() == 65 && count == 45, "{}", run.err);
    }
    let room = room("lengths", &many[..64], &list(44));
    let found = run_in(&room, &format!("{SEARCH} --as csv"), "");
    let shown = "43,44,0,0,1,40,0x4601,0x0000,0123456789,0,107,0";
    assert_eq!(found.out.lines().nth(1), Some(shown));
}

#[test]
fn a_line_that_is_no_candidate_is_named() {
    let region = region();
    for (line, said) in [
        (
            "4 4 37",
            "3 numbers: expected four or five: first CCE, level, A, RNTI and perhaps n_RNTI\n",
        ),
        ("4 4 37 0xffff 1 2", "6 numbers: expected four or five: "),
        ("4", "1 number: expected four or five: "),
        ("4 4 37 0xffff C-RNTI", "`C-RNTI`: expected a whole number"),
        (
            "4 4 37 4294967296",
            "`4294967296`: expected a whole number from 0 to 4294967295",
        ),
        ("4 4 37 SI-RNTI", "`SI-RNTI`: expected a whole number"),
        ("4 4 37 -1", "`-1`: expected a whole number"),
        ("4 4 37.0 1", "`37.0`: expected a whole number"),
        ("4 4 37 ffff", "`ffff`: expected a whole number"),
    ] {
        let run = searched("lines", &region, &format!("# list\n{SIB1}{line}\n{SIB1}"));
        let said = format!("list.txt, line 3: {said}");
        assert_said(&run, line, 66, &[&said]);
    }
    let mut words = region;
    words[15] = "0 0 x".into();
    let said = ["region.txt, line 16: `x`: expected whole numbers from -127 to 127"];
    assert_said(&searched("lines", &words, SIB1), "a word", 66, &said);
}

#[test]
fn files_that_are_missing_are_named() {
    let room = room("missing", &region(), SIB1);
    for (line, said) in [
        (
            "--candidates no/list region.txt",
            "no/list: expected a file of candidates",
        ),
        (
            "--candidates . region.txt",
            ".: expected a file of candidates",
        ),
        (
            "--candidates list.txt no/region",
            "no/region: expected a file of soft values",
        ),
        (
            "--candidates /dev/zero region.txt",
            "more than 1048576 bytes",
        ),
    ] {
        let line = format!("search --id 500 {line}");
        assert_said(&run_in(&room, &line, ""), &line, 66, &[said]);
    }
}

#[test]
fn the_name_of_a_list_need_not_be_text() {
    let name = OsStr::from_bytes(b"l\xefst=\xff.txt");
    let room = room("name", &region(), "");
    fs::write(room.join(name), SIB1).expect("a file for the list");
    let inline = OsString::from_vec([b"--candidates=", name.as_bytes()].concat());
    for given in [vec![OsStr::new("--candidates"), name], vec![&inline]] {
        let mut command = Command::new(PROGRAM);
        command.current_dir(&room);
        command.args(words("search --id 500 --as hex region.txt"));
        let found = run(command.args(given), "");
        assert_printed(&found, &with_noise("5400a00000", 0, 432));
    }
}

#[test]
fn wrong_command_lines_are_explained() {
    let cases: [(&str, &[&str]); 5] = [
        (
            "search --id 1",
            &["--candidates is missing", "the file with the candidates"],
        ),
        ("search --candidates list.txt", &["--id is missing"]),
        (
            "search --id 65536 --candidates a b",
            &["--id 65536", "0 to 65535"],
        ),
        (
            "search --id 1 --candidates a b c",
            &["`c`: expected one file"],
        ),
        (
            "search --id 1 --rnti 1",
            &["--rnti is not an option", "--candidates"],
        ),
    ];
    for (line, said) in cases {
        assert_refused(line, "", 64, said);
    }
}

#[test]
fn the_example_of_the_help_is_true() {
    let help = printed("help search", "");
    let (_, example) = help.split_once("example: ").expect("an example");
    let (example, _) = example.split_once("\nexit status").expect("its end");
    let lines = example.lines().filter(|line| line.starts_with("  "));
    let lines: Vec<&str> = lines.collect();
    let room = room("help", &[], "");
    let line = format!("dci() {{ '{PROGRAM}' \"$@\"; }}\n{}", lines.join("\n"));
    let shown = run(
        Command::new("sh").current_dir(&room).args(["-c", &line]),
        "",
    );
    assert_eq!((shown.status, &shown.err[..]), (0, ""), "{line}");
    assert!(
        shown.out.contains("\nCCEs                     4-7\n"),
        "{}",
        shown.out
    );
    let [clean, noisy] = ["region.txt", "noisy.txt"].map(|name| {
        let text = fs::read_to_string(room.join(name)).expect("a region");
        let values = text.split_whitespace().map(|word| word.parse::<i32>());
        values.collect::<Result<Vec<i32>, _>>().expect("numbers")
    });
    assert_eq!((clean.len(), noisy.len()), (16 * 108, 16 * 108));
    let search = "search --id 1 --as hex --candidates - noisy.txt";
    let found = run_in(&room, search, SIB1);
    // Around the message the clean values are 0.
    let count = clean
        .iter()
        .zip(&noisy)
        .filter(|(c, n)| *c * *n < 0)
        .count();
    assert!(count > 0);
    assert_printed(&found, &with_noise("5400a00000", count, 432));
}

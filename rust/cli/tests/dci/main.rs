//! The command as a user meets it: what it prints, what it complains of, and its exit status.

mod files;
mod levels;
mod n_rnti;
mod noise;
mod payloads;
mod run;
mod search;
mod streams;

use run::{NUMBERS, SIB1, assert_refused, printed, soft_row};

const SIB1_BITS: &str = "0101010000000000101000000000000000000";

/// The bits of the recorded message, as the library gives them under an n_RNTI.
fn coded(n_rnti: u16) -> Vec<u8> {
    let mut payload = [0; 37];
    for place in [1, 3, 5, 16, 18] {
        payload[place] = 1;
    }
    let numbers = speltfeather::Numbers {
        a: 37,
        e: 432,
        rnti: 0xFFFF,
        n_id: 1,
        n_rnti,
    };
    let mut coded = vec![0; 432];
    speltfeather::encode(&numbers, &payload, &mut coded).expect("accepted");
    coded
}

#[test]
fn coding_prints_what_the_library_gives() {
    let coded = coded(0);
    let bits: String = coded.iter().map(u8::to_string).collect();
    assert_eq!(
        printed(&format!("encode {NUMBERS} {SIB1} --as bits"), ""),
        format!("{bits}\n")
    );
    let digits: String = coded
        .chunks(4)
        .map(|four| format!("{:x}", four.iter().fold(0, |digit, bit| 2 * digit + bit)))
        .collect();
    assert_eq!(
        printed(&format!("encode {NUMBERS} {SIB1}"), ""),
        format!("{digits}\n")
    );
    let strip = printed(&format!("encode {NUMBERS} {SIB1} --as strip"), "");
    let cells: String = strip.chars().filter(|c| ['·', '█'].contains(c)).collect();
    assert_eq!(cells.replace('·', "0").replace('█', "1"), bits);
}

#[test]
fn what_was_coded_is_read_back() {
    let soft = soft_row();
    let decode = format!("decode {NUMBERS}");
    assert_eq!(printed(&decode, &soft), "5400a00000\n");
    assert_eq!(printed(&format!("{decode} -"), &soft), "5400a00000\n");
    assert_eq!(
        printed(&format!("{decode} --as bits"), &soft),
        format!("{SIB1_BITS}\n")
    );
    let with_commas = format!(
        "# a row\n{}",
        soft.trim().replace([' ', '\n'], ",").replace("64", "3")
    );
    assert_eq!(printed(&decode, &with_commas), "5400a00000\n");
}

#[test]
fn each_answer_is_the_status_and_names_the_option() {
    let rest = "--rnti 1 --id 2 --payload 000";
    let cases: [(&str, i32, &[&str]); 6] = [
        ("--size 11 --length 108", 1, &["--size 11", "12 to 140"]),
        ("--size 141 --length 432", 1, &["--size 141", "12 to 140"]),
        (
            "--size 12 --length 107",
            2,
            &["--length 107", "108, 216, 432, 864 or 1728"],
        ),
        (
            "--size 85 --length 108",
            3,
            &["--size 85", "--length 108", "at most 84"],
        ),
        (
            "--size 13 --length 108",
            4,
            &["--payload", "3 bits", "13 bits or 4 hex"],
        ),
        (
            "--size 18446744073709551615 --length 108",
            1,
            &["--size 18446744073709551615"],
        ),
    ];
    for (sizes, number, said) in cases {
        assert_refused(&format!("encode {sizes} {rest}"), "", number, said);
        let said = format!("answer {number}");
        assert_refused(&format!("encode {sizes} {rest}"), "", number, &[&said]);
    }
    let sizes = "--size 12 --length 108 --rnti 1 --id 2";
    assert_refused(
        &format!("encode {sizes} --payload 000000020000"),
        "",
        6,
        &["--payload has 2 at place 7"],
    );
}

#[test]
fn decoding_names_what_is_wrong_with_a_row() {
    let decode = format!("decode {NUMBERS}");
    let soft = soft_row();
    assert_refused(&decode, "1 2 3", 4, &["3 soft values", "432", "--length"]);
    assert_refused(&decode, "", 4, &["0 soft values"]);
    let large = soft.replacen('\n', " -128\n", 1).replacen("64 ", "", 1);
    assert_refused(&decode, &large, 6, &["is -128 (line 1)", "-127 to 127"]);
    let other = decode.replace("0xffff", "0xfffe");
    assert_refused(&other, &soft, 7, &["answer 7", "parity"]);
    let bits = "0 1 ".repeat(216);
    assert_refused(&decode, &bits, 7, &["are they bits?"]);
    assert_refused(&decode, "1 2\n3 x", 66, &["line 2", "`x`", "-127 to 127"]);
    let missing = format!("{decode} no/such/file");
    assert_refused(&missing, "", 66, &["no/such/file", "soft values"]);
}

#[test]
fn wrong_command_lines_are_explained() {
    let all = "encode, decode, search, info, answers, help or version";
    let cases: [(&str, &[&str]); 6] = [
        ("", &["no command", all]),
        ("encoded", &["`encoded` is not a command", all]),
        (
            "encode",
            &["--size is missing", "12 to 140", "dci help encode"],
        ),
        ("encode --size", &["--size has no value"]),
        ("encode --size 1 --size 2", &["--size stands twice"]),
        ("encode --sise 12", &["--sise is not an option", "--size"]),
    ];
    for (line, said) in cases {
        assert_refused(line, "", 64, said);
    }
}

#[test]
fn wrong_values_are_explained() {
    let cases: [(&str, &[&str]); 7] = [
        ("--size twelve", &["--size twelve", "12 to 140"]),
        ("--size -12", &["--size -12"]),
        (
            "--size 12 --length 108 --rnti 65536",
            &["--rnti 65536", "0 to 65535"],
        ),
        (
            "--size 12 --length 108 --rnti 0x --id 1",
            &["--rnti 0x", "0 to 65535"],
        ),
        (
            "--size 12 --length 108 --rnti 1 --id 1 --payload 0g1",
            &["--payload 0g1", "12 bits or 3 hexadecimal digits"],
        ),
        (
            "--size 13 --length 108 --rnti 1 --id 1 --payload fff1",
            &["--payload fff1", "last 3 bits"],
        ),
        (
            "--size 12 --length 108 --rnti 1 --id 1 --payload 0 --as octal",
            &["--as octal", "hex, bits, strip or soft"],
        ),
    ];
    for (options, said) in cases {
        assert_refused(&format!("encode {options}"), "", 64, said);
    }
}

#[test]
fn words_that_are_not_taken_are_named() {
    assert_refused("answers now", "", 64, &["`now`: expected nothing"]);
    assert_refused("version 2", "", 64, &["`2`: expected nothing"]);
    assert_refused(&format!("decode {NUMBERS} one two"), "", 64, &["`two`"]);
    assert_refused("help me", "", 64, &["`me` is not a command"]);
    assert_refused("help encode decode", "", 64, &["`decode`", "one command"]);
    let unquoted = format!("encode {NUMBERS} --payload 5400 a00000");
    assert_refused(&unquoted, "", 64, &["`a00000`", "quotes"]);
}

#[test]
fn each_command_has_help() {
    let general = printed("help", "");
    assert_eq!(printed("--help", ""), general);
    assert_eq!(printed("-h encode", ""), printed("help encode", ""));
    for command in &cli::commands::COMMANDS {
        assert!(general.contains(command.name));
        let help = printed(&format!("help {}", command.name), "");
        assert_eq!(printed(&format!("{} --help", command.name), ""), help);
        for option in command.options {
            assert!(help.contains(option.name), "{}", option.name);
        }
        assert!(help.lines().all(|line| line.len() <= 80), "{help}");
    }
}

#[test]
fn the_release_is_said() {
    let release = format!("dci {}\n", env!("CARGO_PKG_VERSION"));
    for line in ["version", "--version", "-V"] {
        assert_eq!(printed(line, ""), release, "{line}");
    }
}

#[test]
fn the_answers_are_listed() {
    let out = printed("answers", "");
    for number in 0..=8 {
        assert!(out.contains(&format!("\n{number}  ")) || out.starts_with(&format!("{number}  ")));
    }
    assert!(out.contains("SPELT_PARITY_MISMATCH") && out.contains("Refusal::BadEntry(place)"));
}

/// The row of `dci info` that starts with these words.
fn row(table: &str, head: &str) -> String {
    let line = table.lines().find(|line| line.starts_with(head));
    line.unwrap_or_else(|| panic!("no {head} in {table}"))[head.len()..]
        .trim()
        .to_string()
}

#[test]
fn codes_are_shown_as_document_01_has_them() {
    // T1, T3, T8 and the repetitions of E = 864 and 1728.
    let table = printed("info --size 12 --length 108 --as table", "");
    assert_eq!(row(&table, "payload and parity K"), "36");
    assert_eq!(row(&table, "code length N"), "128");
    assert!(row(&table, "rate matching").starts_with("puncturing: 20 of 128"));
    assert!(row(&table, "barred  ").starts_with("0-41"));
    let table = printed("info --size 24 --length 108 --as table", "");
    assert!(row(&table, "rate matching").starts_with("shortening: 20 of 128"));
    assert_eq!(row(&table, "barred  "), "108-127");
    let table = printed("info --size 140 --length 432 --as table", "");
    assert_eq!(row(&table, "information positions"), "164");
    assert!(row(&table, "barred  ").starts_with("0-167"));
    for (e, sent) in [
        (864, "352 of 512 code bits are sent twice, the others once"),
        (
            1728,
            "192 of 512 code bits are sent 4 times, the others 3 times",
        ),
    ] {
        let table = printed(&format!("info --size 40 --length {e}"), "");
        assert_eq!(row(&table, "rate matching"), format!("repetition: {sent}"));
        assert_eq!(row(&table, "barred  "), "none");
    }
}

#[test]
fn the_forms_of_a_code_agree() {
    let strip = printed("info --size 37 --length 432 --as strip", "");
    let cells = strip.lines().filter(|line| !line.contains("information"));
    let cells: String = cells.flat_map(str::chars).collect();
    let cells: Vec<char> = cells.chars().filter(|c| "█·×".contains(*c)).collect();
    let csv = printed("info --size 37 --length 432 --as csv", "");
    let listed: Vec<char> = csv
        .lines()
        .skip(1)
        .map(|line| match line.split_once(',').expect("two columns").1 {
            "information" => '█',
            "frozen" => '·',
            "barred" => '×',
            other => panic!("{other}"),
        })
        .collect();
    assert_eq!(cells, listed);
    assert_eq!(cells.len(), 512);
    assert_eq!(cells.iter().filter(|c| **c == '█').count(), 61);
}

#[test]
fn sizes_that_are_refused_have_no_code() {
    assert_refused("info --size 11 --length 108", "", 1, &["--size 11"]);
    assert_refused("info --size 12 --length 109", "", 2, &["--length 109"]);
    assert_refused("info --size 85 --length 108", "", 3, &["at most 84"]);
}

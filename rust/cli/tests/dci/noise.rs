//! The noise count: under `dci decode --report`, and in each form of `dci search`.

use crate::SIB1_BITS;
use crate::run::{NUMBERS, SIB1, assert_refused, assert_said, dci, printed, soft_row, with_noise};
use crate::search::{SEARCH, assert_printed, region, room, run_in};

/// The line that reads the recorded message, with what stands behind it.
fn report(more: &str) -> String {
    format!("decode {NUMBERS} --report {more}")
}

/// Soft values as text, those at these places changed.
fn changed(
    row: &str,
    places: impl IntoIterator<Item = usize>,
    change: impl Fn(i32) -> i32,
) -> String {
    let values = row
        .split_whitespace()
        .map(|word| word.parse().expect("a number"));
    let mut values: Vec<i32> = values.collect();
    for place in places {
        values[place] = change(values[place]);
    }
    let words: Vec<String> = values.iter().map(i32::to_string).collect();
    words.join(" ")
}

/// The same with the wrong sign at these places, and weak there.
fn turned(row: &str, places: impl IntoIterator<Item = usize>) -> String {
    changed(row, places, |value| -value / 8)
}

#[test]
fn it_counts_what_has_the_wrong_sign() {
    let row = soft_row();
    let tenths = || (3..432).step_by(10);
    let zeros = changed(&row, tenths(), |_| 0);
    for (row, count) in [
        (turned(&row, []), 0),
        (turned(&row, [0]), 1),
        (turned(&row, [431]), 1),
        (turned(&row, tenths()), 43),
        (changed(&row, [0, 7, 431], |value| -value), 3),
        // Strengths do not count, and zeros have no sign.
        (changed(&row, 0..432, i32::signum), 0),
        (changed(&row, tenths(), |value| value + value.signum()), 0),
        (zeros.clone(), 0),
        (turned(&zeros, [5, 6]), 2),
    ] {
        for (form, payload) in [("hex", "5400a00000"), ("bits", SIB1_BITS)] {
            let read = printed(&report(&format!("--as {form}")), &row);
            assert_eq!(read, with_noise(payload, count, 432));
        }
        assert_eq!(printed(&format!("decode {NUMBERS}"), &row), "5400a00000\n");
    }
}

#[test]
fn a_bit_that_is_sent_several_times_counts_each_time() {
    let numbers = "--size 37 --level 16 --rnti 0xffff --id 1 --n-rnti 0x4601";
    let row = printed(&format!("encode {numbers} {SIB1} --as soft"), "");
    // One of 512 code bits, which is sent four times; then 40, each wrong in one of three.
    for (row, count) in [
        (turned(&row, [3]), 1),
        (turned(&row, [3, 515]), 2),
        (turned(&row, [3, 515, 1027, 1539]), 4),
        (turned(&row, (192..512).step_by(8)), 40),
    ] {
        let read = printed(&format!("decode {numbers} --report"), &row);
        assert_eq!(read, with_noise("5400a00000", count, 1728));
    }
}

#[test]
fn the_flag_may_stand_anywhere_and_once() {
    let row = turned(&soft_row(), [1, 2]);
    let counted = with_noise("5400a00000", 2, 432);
    for line in [
        format!("decode --report {NUMBERS}"),
        format!(
            "decode --size 37 --report {}",
            &NUMBERS["--size 37".len()..]
        ),
        report(""),
        report("-"),
        format!("decode {NUMBERS} - --report"),
        report("-- -"),
        format!("decode {NUMBERS} --as=hex --report --"),
    ] {
        assert_eq!(printed(&line, &row), counted, "{line}");
    }
    let said = ["--report stands twice: expected once\n", "dci help decode"];
    assert_refused(&report("--report"), &row, 64, &said);
    for (value, said) in [
        ("=yes", "dci decode: --report=yes: expected no value\n"),
        ("=", "dci decode: --report=: expected no value\n"),
    ] {
        let line = format!("decode {NUMBERS} --report{value}");
        assert_refused(&line, &row, 64, &[said]);
    }
    // What stands behind it is no value of it, and an option has one, even this.
    assert_refused(&report("no/such/file"), "", 66, &["no/such/file"]);
    let said = ["--as --report: expected hex or bits"];
    assert_refused(&format!("decode {NUMBERS} --as --report"), &row, 64, &said);
}

#[test]
fn only_decoding_takes_the_flag() {
    for command in [
        format!("encode {NUMBERS} {SIB1}"),
        "search --id 1 --candidates /dev/null".into(),
        "info --size 12 --level 1".into(),
        "answers".into(),
    ] {
        let line = format!("{command} --report");
        assert_refused(&line, "", 64, &["--report is not an option"]);
    }
}

#[test]
fn a_refusal_prints_no_count() {
    let row = turned(&soft_row(), [1, 2]);
    let large = changed(&row, [7], |_| 128);
    let decode = format!("decode {NUMBERS}");
    for (line, input, status) in [
        (decode.replace("37", "11"), &row[..], 1),
        (decode.replace("432", "433"), &row, 2),
        (decode.replace("37", "85").replace("432", "108"), &row, 3),
        (decode.clone(), "1 2 3", 4),
        (decode.clone(), &large, 6),
        (decode.replace("0xffff", "0xfffe"), &row, 7),
        (decode.replace("--id 1", "--id 2"), &row, 7),
        (decode.clone(), "one", 66),
        (decode.replace("--id 1", ""), &row, 64),
    ] {
        let plain = dci(&line, None, input);
        let report = dci(&format!("{line} --report"), None, input);
        assert_said(&plain, &line, status, &[]);
        assert_said(&report, &line, status, &[]);
        assert_eq!(report.err, plain.err, "{line}");
    }
}

/// The region with noise: 3 wrong signs in the message at CCE 1, 40 in the one at 4 to 7, 5 and 7 in
/// those at 8 and 10, and ones where there is none.
fn noisy_region() -> Vec<String> {
    let mut region = region();
    for (cce, count) in [(1, 3), (4, 9), (5, 10), (7, 21), (8, 5), (10, 4), (11, 3)] {
        region[cce] = turned(&region[cce], (0..count).map(|k| 5 * k));
    }
    for cce in [0, 2, 3, 12, 13, 14, 15] {
        region[cce] = changed(&region[cce], 0..108, |_| 1);
    }
    region
}

#[test]
fn a_search_counts_in_the_candidate_that_it_names() {
    let region = noisy_region();
    for (place, numbers, payload, count, values) in [
        ("1 1", "40 0x4601", "0123456789", 3, 108),
        ("4 4", "37 0xffff", "5400a00000", 40, 432),
        ("8 2", "12 7", "abc", 5, 216),
        ("10 2", "40 0x4601 0x5702", "fedcba9876", 7, 216),
    ] {
        // Before it: no message, its own values for another size, and what cannot be a candidate.
        let before = format!("12 4 37 0xffff\n{place} 60 0x4601\n0 3 37 1\n");
        let list = format!("{before}{place} {numbers}\n8 2 12 7\n1 1 40 0x4601\n");
        let room = room("noise", &region, &list);
        let found = |form: &str| run_in(&room, &format!("{SEARCH} --as {form}"), "");
        assert_printed(&found("hex"), &with_noise(payload, count, values));
        let row = format!("noise count              {count} of {values} soft values");
        assert_eq!(found("table").out.lines().last(), Some(&row[..]));
        let csv = found("csv").out;
        assert_eq!(
            csv.lines().map(last_column).collect::<Vec<_>>(),
            ["noise", &count.to_string()]
        );
    }
    let room = room("noise", &region, "4 4 37 0xffff");
    let bits = run_in(&room, &format!("{SEARCH} --as bits"), "");
    assert_printed(&bits, &with_noise(SIB1_BITS, 40, 432));
}

fn last_column(line: &str) -> &str {
    line.rsplit(',').next().unwrap_or_default()
}

#[test]
fn a_search_prints_what_decoding_reports() {
    let region = noisy_region();
    let room = room("reported", &region, "4 4 37 0xffff");
    let row = region[4..8].join("\n");
    for form in ["hex", "bits"] {
        let form = format!("--as {form}");
        let read = printed(&report(&form).replace("--id 1", "--id 500"), &row);
        let found = run_in(&room, &format!("{SEARCH} {form}"), "");
        assert_printed(&found, &read);
    }
}

#[test]
fn a_search_that_finds_nothing_prints_no_count() {
    let room = room("nothing", &noisy_region(), "4 4 37 0xfffe\n8 2 12 8\n");
    for form in ["table", "csv", "hex", "bits"] {
        let run = run_in(&room, &format!("{SEARCH} --as {form}"), "");
        assert_said(
            &run,
            form,
            8,
            &["answer 8: no candidate accepted: 2 of 2 tried\n"],
        );
        assert!(!run.err.contains("noise"), "{}", run.err);
    }
}

#[test]
fn the_help_says_what_is_counted() {
    for command in ["decode", "search"] {
        let help = printed(&format!("help {command}"), "");
        let help = help.split_whitespace().collect::<Vec<_>>().join(" ");
        for words in [
            "The noise count is how many",
            "are not 0 and have the wrong sign for their bit of",
            "payload coded again. It is 0 without noise.",
            "against the payload that was accepted, whether or not that one was sent.",
            "--report",
        ] {
            assert!(help.contains(words), "{command}: {words}: {help}");
        }
    }
    assert!(printed("help decode", "").contains("[--report] [FILE]\n"));
    assert!(printed("help answers", "").contains("noise count is 0"));
}

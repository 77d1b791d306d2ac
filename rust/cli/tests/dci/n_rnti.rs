//! The option --n-rnti: left out, given, and given wrongly.

use crate::coded;
use crate::run::{NUMBERS, SIB1, assert_refused, assert_said, dci, printed};

/// What coding the recorded message with these options prints.
fn encoded(more: &str) -> String {
    printed(&format!("encode {NUMBERS} {SIB1} {more}"), "")
}

#[test]
fn left_out_it_is_0() {
    let coded = encoded("");
    for zero in ["0", "0x0", "0x0000"] {
        assert_eq!(encoded(&format!("--n-rnti {zero}")), coded);
    }
    assert_eq!(encoded("--n-rnti=0"), coded);
    assert_eq!(encoded("--n-rnti 0x8000"), coded);
    assert_ne!(encoded("--n-rnti 0x7fff"), coded);
}

#[test]
fn it_is_handed_to_the_library() {
    for (given, n_rnti) in [("0x4601", 0x4601), ("17921", 0x4601), ("65535", 0xFFFF)] {
        let bits: String = coded(n_rnti).iter().map(u8::to_string).collect();
        let line = format!("--n-rnti {given} --as bits");
        assert_eq!(encoded(&line), format!("{bits}\n"), "{given}");
    }
}

#[test]
fn a_message_is_read_under_its_own_alone() {
    let soft = encoded("--n-rnti 0x4601 --as soft");
    let decode = format!("decode {NUMBERS}");
    // C601 and 4601 differ in the bit that does not scramble.
    for same in ["0x4601", "17921", "0xC601"] {
        let line = format!("{decode} --n-rnti {same}");
        assert_eq!(printed(&line, &soft), "5400a00000\n", "{same}");
    }
    let said = ["answer 7: ", "no message under these numbers\n"];
    for other in ["", "--n-rnti 0", "--n-rnti 0x4602", "--n-rnti 0xffff"] {
        assert_refused(&format!("{decode} {other}"), &soft, 7, &said);
    }
    let common = encoded("--as soft");
    assert_refused(&format!("{decode} --n-rnti 0x4601"), &common, 7, &said);
}

#[test]
fn what_is_no_n_rnti_is_refused() {
    let row = "0 ".repeat(432);
    for command in [
        format!("encode {NUMBERS} {SIB1}"),
        format!("decode {NUMBERS}"),
        "search --id 1 --candidates /dev/null".into(),
    ] {
        let said = |value: &str| [format!("--n-rnti {value}"), "0 to 65535".into()];
        for value in [
            "65536", "0x10000", "-1", "+1", "C-RNTI", "4601h", "0x", "1.5", "",
        ] {
            let run = dci(&format!("{command} --n-rnti"), Some(value.into()), &row);
            let said = said(value);
            assert_said(&run, value, 64, &said.each_ref().map(String::as_str));
        }
        let line = format!("{command} --n-rnti=");
        assert_refused(&line, &row, 64, &["--n-rnti : expected n_RNTI"]);
        let line = format!("{command} --n-rnti");
        assert_refused(&line, &row, 64, &["--n-rnti has no value"]);
        let line = format!("{command} --n-rnti 1 --n-rnti 1");
        assert_refused(&line, &row, 64, &["--n-rnti stands twice"]);
    }
}

#[test]
fn only_what_scrambles_takes_it() {
    let said = ["--n-rnti is not an option", "--size"];
    assert_refused("info --size 12 --level 1 --n-rnti 1", "", 64, &said);
}

#[test]
fn the_help_says_when_it_is_needed() {
    let when = ["user-specific (UE-specific) search space", "C-RNTI"];
    for command in ["encode", "decode", "search"] {
        let help = printed(&format!("help {command}"), "");
        for words in when {
            assert!(help.contains(words), "{command}: {words}");
        }
        assert!(help.contains("[--n-rnti C]"), "{help}");
    }
    let search = printed("help search", "");
    assert!(search.contains("search spaces with different n_ID take a search each"));
}

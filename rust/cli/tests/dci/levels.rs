//! The aggregation level in place of the coded length.

use crate::run::{NUMBERS, SIB1, assert_refused, printed, soft_row};

#[test]
fn a_level_stands_for_its_length() {
    let rest = "--size 37 --rnti 0xffff --id 1";
    for (level, e) in [(1, 108), (2, 216), (4, 432), (8, 864), (16, 1728)] {
        let given = [format!("--level {level}"), format!("--length {e}")];
        let [by_level, by_length] = given.each_ref().map(|length| {
            let soft = printed(&format!("encode {rest} {length} {SIB1} --as soft"), "");
            let read = printed(&format!("decode {rest} {length}"), &soft);
            let code = printed(&format!("info --size 37 {length}"), "");
            (soft, read, code)
        });
        assert_eq!(by_level, by_length);
        assert_eq!(by_level.1, "5400a00000\n");
    }
}

#[test]
fn one_of_the_two_must_be_given() {
    for command in ["encode", "decode", "info"] {
        let neither = format!("{command} --size 37");
        assert_refused(&neither, "", 64, &["--length is missing", "--level"]);
        let both = format!("{command} --size 37 --length 432 --level 4");
        assert_refused(&both, "", 64, &["--length and --level are both given"]);
        for level in ["3", "0", "32", "-1", "four", "18446744073709551616"] {
            let line = format!("{command} --size 37 --level {level}");
            let named = format!("--level {level}");
            assert_refused(&line, "", 64, &[&named, "1, 2, 4, 8 or 16"]);
        }
    }
}

#[test]
fn a_refusal_names_the_option_that_was_given() {
    let line = "encode --size 85 --level 1 --rnti 1 --id 1 --payload 0";
    assert_refused(line, "", 3, &["--size 85 with --level 1", "at most 84"]);
    let line = format!("decode {}", NUMBERS.replace("--length 432", "--level 8"));
    let said = ["432 soft values: expected 864, as --level 8 says"];
    assert_refused(&line, &soft_row(), 4, &said);
}

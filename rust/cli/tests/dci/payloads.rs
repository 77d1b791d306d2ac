//! How a payload may be written.

use crate::SIB1_BITS;
use crate::run::{NUMBERS, SIB1, assert_said, dci, printed};
use channel::Random;

fn assert_coded_alike(payload: &str) {
    let coded = printed(&format!("encode {NUMBERS} {SIB1}"), "");
    let line = format!("encode {NUMBERS} --payload");
    let run = dci(&line, Some(payload.into()), "");
    assert_eq!((run.status, run.out), (0, coded), "{payload}: {}", run.err);
}

#[test]
fn a_payload_may_be_bits_or_digits() {
    for payload in ["5400a00000", "0x5400A00000", "0X5400a00000", SIB1_BITS] {
        assert_coded_alike(payload);
    }
    assert_coded_alike(&format!("0b{SIB1_BITS}"));
    assert_coded_alike(&format!("0B{SIB1_BITS}"));
    let inline = format!("encode {NUMBERS} --payload=5400a00000");
    assert_eq!(
        printed(&inline, ""),
        printed(&format!("encode {NUMBERS} {SIB1}"), "")
    );
}

#[test]
fn digits_may_stand_apart() {
    for payload in [
        "54_00a_00000",
        " 54 00 a0 00 00\n",
        "0x 54 00 a0 00 00",
        "\u{feff}5400a00000\r\n",
        "[54, 00, a0, 00, 00]",
        "{54;00;(a0)00,00}",
    ] {
        assert_coded_alike(payload);
    }
    let listed: Vec<String> = SIB1_BITS.chars().map(String::from).collect();
    assert_coded_alike(&format!("[{}]", listed.join(", ")));
    assert_coded_alike(&format!("0b {}", listed.join(" ")));
}

/// Asserts that a payload is coded, and that decoding prints it as it was given.
fn assert_read_back(size: usize, payload: &str) {
    let numbers = format!("--size {size} --level 4 --rnti 1 --id 2");
    let line = format!("encode {numbers} --payload {payload} --as soft");
    let read = printed(&format!("decode {numbers}"), &printed(&line, ""));
    assert_eq!(read.trim(), payload, "at size {size}");
}

#[test]
fn what_decoding_prints_is_coded() {
    assert_read_back(37, "0b00a00000");
    for first in 0..=0xff {
        assert_read_back(12, &format!("{first:02x}5"));
    }
    for last in 0..16 {
        assert_read_back(12, &format!("0b{last:x}"));
    }
    let mut random = Random::new(1);
    for size in (16..=140).step_by(4) {
        let digits = random.bytes(size / 4 - 2);
        let digits: String = digits.iter().map(|d| format!("{:x}", d & 15)).collect();
        assert_read_back(size, &format!("0b{digits}"));
    }
}

#[test]
fn as_many_digits_as_a_size_fills_are_hexadecimal() {
    let coded = |size: u64, payload: &str| {
        let line = format!("encode --size {size} --level 1 --rnti 1 --id 2 --payload {payload}");
        dci(&line, None, "")
    };
    // Five digits fill 17 to 20 bits; below and above 0b is a prefix, and three bits are too few.
    for size in [16, 21] {
        assert_said(&coded(size, "0b101"), "0b101", 4, &["--payload has 3 bits"]);
    }
    for size in 17..20 {
        let spare = format!("last {} bits", 20 - size);
        assert_said(&coded(size, "0b101"), "0b101", 64, &[&spare]);
    }
    let bits = coded(20, "0b00001011000100000001");
    assert_eq!(bits.status, 0);
    assert_eq!(coded(20, "0b101").out, bits.out);
    assert_eq!(coded(20, "0B101").out, bits.out);
    assert_eq!(coded(20, "0x0b101").out, bits.out);
}

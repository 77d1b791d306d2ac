//! The main job on a small real example: the message that announces SIB1, as it was recorded (source
//! 001 of docs/SOURCES.md), is coded, sent through noise and read back. Then a handset's search for its
//! messages, some calls that are refused, and the self-test on every accepted size.

use channel::{Channel, Random};
use cli::{answers, picture, text};
use speltfeather::{Numbers, Refusal, decode, encode, loopback};
use std::fmt::Debug;
use std::io::{self, Write};

/// Prints a line. That nobody reads on, as after `| head`, is no error.
macro_rules! say {
    ($($text:tt)*) => {
        let _ = writeln!(io::stdout(), $($text)*);
    };
}

mod search;

/// The fields of the recorded message: value and width, most significant bit first.
const FIELDS: [(u32, u32); 7] = [(168, 9), (0, 4), (0, 1), (5, 5), (0, 2), (0, 1), (0, 15)];
const NUMBERS: Numbers = Numbers {
    a: 37,
    e: 432,
    rnti: 0xFFFF,
    n_id: 1,
    n_rnti: 0,
};
/// Signal-to-noise ratios of a symbol in dB: from easy to hopeless.
const STRENGTHS: [f64; 6] = [6.0, 0.0, -3.0, -5.0, -7.0, -12.0];
/// Messages sent at each.
const MESSAGES: usize = 1000;
const SEED: u64 = 1;

fn main() {
    say!("Speltfeather: 5G downlink control messages (DCI), coded and read back\n");
    let payload = recorded();
    let coded = show_coding(&payload);
    show_noise(&payload, &coded);
    search::show(&payload);
    show_refusals(&payload, &coded);
    show_self_test();
    say!(
        "\nTry it: `make dci`, then `dci help`. The curves: docs/BLER.md. The proofs: docs/PROOFS.md."
    );
}

fn recorded() -> Vec<u8> {
    let bits = |&(value, width): &(u32, u32)| (0..width).rev().map(move |i| (value >> i & 1) as u8);
    FIELDS.iter().flat_map(bits).collect()
}

fn show_coding(payload: &[u8]) -> Vec<u8> {
    say!("1. Coding: the message that announces SIB1, 37 bits, RNTI ffff, identity 1\n");
    say!("   payload  {}", text::digits(payload));
    say!("            {} in hexadecimal digits", text::hex(payload));
    let mut coded = vec![0; 432];
    encode(&NUMBERS, payload, &mut coded).expect("the numbers are accepted");
    say!("   answer   0, and 432 bits:\n");
    for line in text::hex(&coded).as_bytes().chunks(54) {
        say!("       {}", String::from_utf8_lossy(line));
    }
    say!();
    for line in picture::strip(coded.iter().map(|&bit| picture::bit(bit))) {
        say!("{line}");
    }
    coded
}

fn show_noise(payload: &[u8], coded: &[u8]) {
    say!("\n2. Through white noise and back, QPSK, {MESSAGES} times at each strength\n");
    say!("      SNR   signs wrong   the first one's answer                     read");
    let mut random = Random::new(SEED);
    let mut read_of_all = 0;
    for snr in STRENGTHS {
        let channel = Channel::at(snr);
        let rows: Vec<Vec<i32>> = (0..MESSAGES)
            .map(|_| channel.received(coded, &mut random))
            .collect();
        let read = rows.iter().filter(|soft| reads(payload, coded, soft));
        let read = read.count();
        read_of_all += read;
        say!(
            "   {snr:>+4.0} dB   {:>3} of 432    {:<40} {read:>4} of {MESSAGES}",
            wrong_signs(coded, &rows[0]),
            answered(&NUMBERS, &rows[0])
        );
    }
    say!(
        "\n   The noise count is against the payload that was read, the signs wrong against what was"
    );
    say!("   sent: they agree in each of the {read_of_all} messages read.");
}

/// How many soft values have the wrong sign for what was sent; 0 has none.
fn wrong_signs(coded: &[u8], soft: &[i32]) -> usize {
    let is_wrong = |&(&bit, &value): &(&u8, &i32)| if bit == 0 { value < 0 } else { value > 0 };
    coded.iter().zip(soft).filter(is_wrong).count()
}

/// Whether the row gives the payload. A row that gives another would be a false alarm.
fn reads(payload: &[u8], coded: &[u8], soft: &[i32]) -> bool {
    let mut out = vec![0; payload.len()];
    let answer = decode(&NUMBERS, soft, &mut out);
    let Some(reading) = answer.ok().filter(|_| out == payload) else {
        return false;
    };
    assert_eq!(reading.noise, wrong_signs(coded, soft), "the noise count");
    true
}

/// The answer to a row, with the payload and the noise count, or what the number means.
fn answered(numbers: &Numbers, soft: &[i32]) -> String {
    let mut out = vec![0; numbers.a as usize];
    match decode(numbers, soft, &mut out) {
        Ok(reading) => {
            let payload = text::hex(&out);
            format!("0, payload {payload}, noise count {}", reading.noise)
        }
        Err(refusal) => format!("{}, {refusal}", refusal.number()),
    }
}

fn show_refusals(payload: &[u8], coded: &[u8]) {
    say!("\n4. Refused: each call leaves its output buffer as it was\n");
    let mut bad = payload.to_vec();
    bad[5] = 2;
    let mut out = vec![9; 432];
    show_refusal("a payload with a 2 in it", encode(&NUMBERS, &bad, &mut out));
    let short = Numbers { a: 11, ..NUMBERS };
    show_refusal("11 bits", encode(&short, &payload[..11], &mut out));
    let dense = Numbers {
        a: 100,
        e: 108,
        ..NUMBERS
    };
    show_refusal(
        "100 bits in 108",
        encode(&dense, &[0; 100], &mut out[..108]),
    );
    let soft: Vec<i32> = coded.iter().map(|&bit| 64 - 128 * i32::from(bit)).collect();
    let others = [
        ("read for RNTI 1234", 0x1234, 0),
        ("read with n_RNTI 1234", NUMBERS.rnti, 0x1234),
    ];
    for (call, rnti, n_rnti) in others {
        let other = Numbers {
            rnti,
            n_rnti,
            ..NUMBERS
        };
        show_refusal(call, decode(&other, &soft, &mut out[..37]));
    }
    assert!(out.iter().all(|&byte| byte == 9), "a refusal wrote");
}

fn show_refusal(call: &str, answer: Result<impl Debug, Refusal>) {
    let refusal = answer.expect_err("a call that must be refused");
    let place = match refusal {
        Refusal::BadEntry(place) => format!(" (place {place})"),
        _ => String::new(),
    };
    let meaning = answers::meaning(refusal).split([';', ':']).next();
    say!(
        "   {call:<25} {}{place}: {}",
        refusal.number(),
        meaning.unwrap_or_default()
    );
}

/// Promise 3 on one message for each accepted pair of sizes, with strengths from 1 to 127.
fn show_self_test() {
    say!("\n5. Self-test: coded, given uneven strengths, and read back\n");
    let mut random = Random::new(SEED);
    let lengths = [108, 216, 432, 864, 1728];
    let pairs = lengths
        .into_iter()
        .flat_map(|e| (12..=140).map(move |a| (a, e)));
    let mut passed = 0;
    for (a, e) in pairs.filter(|(a, e)| a + 24 <= *e) {
        let numbers = random.numbers(a, e);
        let payload = random.bits(a as usize);
        let strengths: Vec<i32> = (0..e).map(|_| random.between(1, 127)).collect();
        let mut out = vec![9; a as usize];
        let reading = loopback(&numbers, &payload, &strengths, &mut out).expect("promise 3");
        assert_eq!((&out, reading.noise), (&payload, 0), "promise 3");
        passed += 1;
    }
    say!("   {passed} pairs of size and length: each gave 0, its payload and the noise count 0");
}

//! Bits as text, and text as bits.

use crate::failure::Failure;
use std::ffi::OsStr;

/// Bits as hexadecimal digits: the first bit is the highest of the first digit, and the last digit is
/// filled up with zeros.
pub fn hex(bits: &[u8]) -> String {
    let digit = |four: &[u8]| (0..4).fold(0, |d, i| 2 * d + four.get(i).copied().unwrap_or(0));
    let digits = bits.chunks(4).map(digit);
    digits.map(|digit| format!("{digit:x}")).collect()
}

/// Bits as digits 0 and 1.
pub fn digits(bits: &[u8]) -> String {
    bits.iter().map(u8::to_string).collect()
}

/// A payload of `size` bits from its text: as many hexadecimal digits as it fills, else bits.
///
/// The number of entries is not held to the size, nor are digits above 1: that is the library's to
/// judge.
///
/// # Errors
/// A character that is neither, or bits behind the payload's end that are not 0.
pub fn payload(text: &str, size: u64) -> Result<Vec<u8>, Failure> {
    let wrong = |expected| {
        let text = shown(text);
        Failure::Usage(format!("--payload {text}: expected {expected}"))
    };
    let between = |c: &char| *c == '_' || is_separator(*c);
    let plain: String = text.chars().filter(|c| !between(c)).collect();
    let (plain, is_hex) = notation(&plain, size);
    let values: Option<Vec<u8>> = plain.chars().map(digit).collect();
    let values = values.ok_or_else(|| wrong(wanted(size)))?;
    if !is_hex {
        return Ok(values);
    }
    let bits = |value: &u8| [3, 2, 1, 0].map(|i| value >> i & 1);
    let mut bits: Vec<u8> = values.iter().flat_map(bits).collect();
    if values.len() as u64 == size.div_ceil(4) {
        let spare = bits.split_off(size as usize);
        if spare.contains(&1) {
            return Err(wrong(format!(
                "0 in the last {} bits of the last digit, behind the {size} bits of the payload",
                spare.len()
            )));
        }
    }
    Ok(bits)
}

/// The digits of a payload without what stands in front of them, and whether they are hexadecimal.
///
/// As many digits as the payload fills are hexadecimal before a prefix is looked for: 12 bits may
/// well be printed as `0b0`. No payload in bits is lost by it, since A bits never fill A digits.
fn notation(plain: &str, size: u64) -> (&str, bool) {
    let counts = |digits: u64| plain.len() as u64 == digits;
    let is = |radix| plain.chars().all(|c| c.is_digit(radix));
    if counts(size.div_ceil(4)) && is(16) {
        return (plain, true);
    }
    match (behind(plain, 'x'), behind(plain, 'b')) {
        (Some(digits), _) => (digits, true),
        (_, Some(digits)) => (digits, false),
        _ => (plain, !is(10) || !(is(2) || counts(size))),
    }
}

/// What stands behind 0 and that letter, small or capital.
pub fn behind(text: &str, letter: char) -> Option<&str> {
    let either = [letter, letter.to_ascii_uppercase()];
    text.strip_prefix('0')?.strip_prefix(either)
}

/// What may stand between numbers or digits, as other programs print them: white space, a comma or
/// semicolon, a bracket, a byte order mark.
pub fn is_separator(c: char) -> bool {
    c.is_whitespace() || ",;[](){}\u{feff}".contains(c)
}

/// The words of each line, with the number of the line.
pub fn lines(text: &str) -> impl Iterator<Item = (usize, impl Iterator<Item = &str>)> {
    (1..).zip(text.lines().map(words))
}

/// What stands in a line between separators and before a comment.
fn words(line: &str) -> impl Iterator<Item = &str> {
    let plain = line.split('#').next().unwrap_or_default();
    plain.split(is_separator).filter(|word| !word.is_empty())
}

/// A number of up to `bits` bits, decimal, or hexadecimal behind 0x; none if it is not one.
pub fn number(text: &str, bits: u32) -> Option<u64> {
    let (digits, radix) = match behind(text, 'x') {
        Some(digits) => (digits, 16),
        None => (text, 10),
    };
    let value = u64::from_str_radix(digits, radix).ok()?;
    let is_taken = !digits.starts_with('+') && (bits == 64 || value >> bits == 0);
    is_taken.then_some(value)
}

/// How many bytes an error shows of what was given, before it says that there is more.
const SHOWN: usize = 100;

/// What an error shows of something that was given: cut short, and with no character that a terminal
/// would act on.
pub fn shown(given: impl AsRef<OsStr>) -> String {
    let mut shown = String::new();
    for c in given.as_ref().to_string_lossy().chars() {
        if shown.len() >= SHOWN {
            return shown + "...";
        }
        match c {
            '\'' | '"' => shown.push(c),
            _ => shown.extend(c.escape_debug()),
        }
    }
    shown
}

/// Lines as one text.
pub fn joined(lines: &[String]) -> String {
    lines.iter().map(|line| format!("{line}\n")).collect()
}

/// What a payload of that size is written as.
pub fn wanted(size: u64) -> String {
    let digits = size.div_ceil(4);
    format!("{size} bits or {digits} hexadecimal digits, the first bit highest")
}

fn digit(c: char) -> Option<u8> {
    c.to_digit(16).map(|value| value as u8)
}

/// Ascending numbers as ranges: `0-5, 7, 9-12`.
pub fn ranges(numbers: impl Iterator<Item = usize>) -> Vec<String> {
    let mut runs: Vec<(usize, usize)> = Vec::new();
    for number in numbers {
        match runs.last_mut() {
            Some((_, last)) if *last + 1 == number => *last = number,
            _ => runs.push((number, number)),
        }
    }
    let shown = |(first, last): (usize, usize)| match last - first {
        0 => first.to_string(),
        _ => format!("{first}-{last}"),
    };
    runs.into_iter().map(shown).collect()
}

/// Words in lines of at most `width` characters.
pub fn wrapped(words: &[String], width: usize) -> Vec<String> {
    let mut lines = vec![String::new()];
    for word in words {
        let line = lines.last_mut().expect("there is a first line");
        if line.is_empty() {
            line.push_str(word);
        } else if line.len() + 1 + word.len() <= width {
            line.push(' ');
            line.push_str(word);
        } else {
            lines.push(word.clone());
        }
    }
    lines
}

#[cfg(test)]
mod tests {
    use super::*;
    use channel::Random;

    #[test]
    fn digits_are_filled_up_behind() {
        assert_eq!(hex(&[0, 1, 0, 1, 1]), "58");
        assert_eq!(hex(&[]), "");
        assert_eq!(hex(&[1; 8]), "ff");
    }

    #[test]
    fn a_payload_is_read_as_bits_or_digits() {
        let bits = [1, 0, 1, 1, 0, 0, 1, 0, 1, 1, 1, 0, 1];
        assert_eq!(payload("1011001011101", 13).unwrap(), bits);
        assert_eq!(payload("b2e8", 13).unwrap(), bits);
        assert_eq!(payload("0xB2E8", 13).unwrap(), bits);
        assert_eq!(payload("0b1011_0010_1110_1", 13).unwrap(), bits);
        // Three digits for 12 bits are hexadecimal, even where they look like bits.
        assert_eq!(payload("101", 12).unwrap(), hex_bits(0x101));
        assert_eq!(payload("0b101", 12).unwrap(), [1, 0, 1]);
        assert_eq!(payload("0B101", 12).unwrap(), [1, 0, 1]);
        assert_eq!(payload("0X101", 12).unwrap(), hex_bits(0x101));
    }

    fn hex_bits(value: u32) -> Vec<u8> {
        (0..12).rev().map(|i| (value >> i & 1) as u8).collect()
    }

    #[test]
    fn what_is_printed_is_read_back() {
        for value in 0..1 << 12 {
            let bits = hex_bits(value);
            assert_eq!(hex(&bits), format!("{value:03x}"));
            assert_eq!(payload(&hex(&bits), 12).unwrap(), bits);
        }
        let mut random = Random::new(1);
        for size in 12..=140 {
            for first in 0..=255 {
                let mut bits = random.bits(size);
                bits[..8].copy_from_slice(&[7, 6, 5, 4, 3, 2, 1, 0].map(|i| first >> i & 1));
                for text in [hex(&bits), format!("0x{}", hex(&bits)), digits(&bits)] {
                    assert_eq!(payload(&text, size as u64).unwrap(), bits, "{text}");
                }
            }
        }
    }

    #[test]
    fn as_many_digits_as_fill_it_are_hexadecimal() {
        let bits = payload("0b101", 20).unwrap();
        assert_eq!(hex(&bits), "0b101");
        assert_eq!(payload("0 b1_01", 20).unwrap(), bits);
        assert!(payload("0b101", 19).is_err());
        for size in [16, 21] {
            assert_eq!(payload("0b101", size).unwrap(), [1, 0, 1]);
        }
    }

    #[test]
    fn what_is_shown_is_short_and_plain() {
        assert_eq!(shown("it's \"ä\" \\"), "it's \"ä\" \\\\");
        assert_eq!(shown("\u{1b}[2J\n\0"), "\\u{1b}[2J\\n\\0");
        assert_eq!(shown("x".repeat(SHOWN)), "x".repeat(SHOWN));
        assert_eq!(shown("x".repeat(9999)), "x".repeat(SHOWN) + "...");
        assert!(shown("\u{202e}".repeat(9999)).len() < SHOWN + 12);
    }

    #[test]
    fn what_the_library_judges_is_left_to_it() {
        // Too few bits, too many digits, a digit that is no bit.
        assert_eq!(payload("101", 13).unwrap(), [1, 0, 1]);
        assert_eq!(payload("b2e80", 13).unwrap().len(), 20);
        assert_eq!(payload("1011001011102", 13).unwrap()[12], 2);
        assert_eq!(payload("", 12).unwrap(), []);
    }

    #[test]
    fn what_is_no_payload_is_named() {
        let said = |text, size| payload(text, size).unwrap_err().message().unwrap();
        assert!(said("10x1", 13).contains("13 bits or 4 hexadecimal digits"));
        assert!(said("b2e9", 13).contains("last 3 bits"));
    }

    #[test]
    fn runs_of_numbers_are_ranges() {
        let numbers = [0, 1, 2, 5, 7, 8];
        assert_eq!(ranges(numbers.into_iter()), ["0-2", "5", "7-8"]);
        assert!(ranges(std::iter::empty()).is_empty());
    }

    #[test]
    fn lines_are_no_longer_than_asked() {
        let words: Vec<String> = (0..40).map(|i| i.to_string()).collect();
        let lines = wrapped(&words, 20);
        assert!(lines.iter().all(|line| line.len() <= 20));
        assert_eq!(lines.join(" "), words.join(" "));
    }
}

//! A list of candidates as text: a line for each, with four or five numbers in it; `#` starts a
//! comment.

use crate::failure::Failure;
use crate::inputs::Input;
use crate::text::{lines, number, shown};
use speltfeather::Candidate;

/// A candidate and the line that it stood on.
#[derive(Clone, Copy, Debug, PartialEq, Eq)]
pub struct Listed {
    pub candidate: Candidate,
    pub line: usize,
}

/// Reads a list, in which a line without n_RNTI has the one that is handed in. Whether it is short
/// enough and its candidates can be messages is the library's to judge.
///
/// # Errors
/// A line with other than four or five numbers, or something that is not a whole number of 32 bits.
pub fn read(input: &Input, n_rnti: u16) -> Result<Vec<Listed>, Failure> {
    let mut list = Vec::new();
    for (line, words) in lines(&input.text) {
        let wrong = |text| Failure::File(format!("{}, line {line}: {text}", input.source));
        let numbers: Result<Vec<u32>, String> = words.map(entry).collect();
        let numbers = numbers.map_err(wrong)?;
        if numbers.is_empty() {
            continue;
        }
        let candidate = candidate(&numbers, n_rnti).ok_or_else(|| wrong(count(numbers.len())))?;
        list.push(Listed { candidate, line });
    }
    Ok(list)
}

/// The candidate of a line's numbers; none if they are too few or too many.
fn candidate(numbers: &[u32], n_rnti: u16) -> Option<Candidate> {
    let (&[first_cce, level, a, rnti], rest) = numbers.split_first_chunk()?;
    let n_rnti = match *rest {
        [] => n_rnti.into(),
        [n_rnti] => n_rnti,
        _ => return None,
    };
    Some(Candidate {
        first_cce,
        level,
        a,
        rnti,
        n_rnti,
    })
}

fn entry(word: &str) -> Result<u32, String> {
    let value = number(word, 32).map(|value| value as u32);
    value.ok_or_else(|| {
        format!(
            "`{}`: expected a whole number from 0 to 4294967295, decimal or hexadecimal after 0x",
            shown(word)
        )
    })
}

fn count(numbers: usize) -> String {
    let what = if numbers == 1 { "number" } else { "numbers" };
    format!("{numbers} {what}: expected four or five: first CCE, level, A, RNTI and perhaps n_RNTI")
}

#[cfg(test)]
mod tests {
    use super::*;

    fn read(text: &str) -> Result<Vec<Listed>, Failure> {
        let (source, text) = ("list.txt".into(), text.into());
        super::read(&Input { source, text }, 0x5702)
    }

    #[test]
    fn a_candidate_is_a_line_of_four_or_five_numbers() {
        let text = "# first CCE, level, A, RNTI, n_RNTI\n\n 8,4, 37,0xFFFF # SIB1\n\
                    [{0 16 0x8c 1 0x4601}];\n[]\n4 2 12 7 0";
        let listed = |line, [first_cce, level, a, rnti, n_rnti]: [u32; 5]| Listed {
            candidate: Candidate {
                first_cce,
                level,
                a,
                rnti,
                n_rnti,
            },
            line,
        };
        let expected = [
            listed(3, [8, 4, 37, 0xFFFF, 0x5702]),
            listed(4, [0, 16, 140, 1, 0x4601]),
            listed(6, [4, 2, 12, 7, 0]),
        ];
        assert_eq!(read(text).unwrap(), expected);
        assert_eq!(read("").unwrap(), []);
        let most = read("4294967295 0xffffffff 0 4294967295 0xfffffffe").unwrap();
        let numbers = [u32::MAX, u32::MAX, 0, u32::MAX, u32::MAX - 1];
        assert_eq!(most, [listed(1, numbers)]);
    }

    #[test]
    fn what_is_no_candidate_is_named_with_its_line() {
        for (line, said) in [
            ("1", "1 number: expected four or five"),
            ("1 2 3", "3 numbers: expected four or five"),
            ("1 2 3 4 5 6", "6 numbers: expected four or five"),
            ("1 2 3 4 five", "`five`: expected a whole number"),
            ("1 2 3 four", "`four`: expected a whole number"),
            ("1 2 3 4294967296", "`4294967296`: expected a whole number"),
            (
                "1 2 3 0x100000000",
                "`0x100000000`: expected a whole number",
            ),
            ("1 2 3 -1", "`-1`: expected a whole number"),
            ("1 2 3 +1", "`+1`: expected a whole number"),
            ("1 2 3 0x", "`0x`: expected a whole number"),
        ] {
            let failure = read(&format!("0 1 12 1\n\n{line}\n0 1 12 1")).unwrap_err();
            assert!(matches!(failure, Failure::File(_)));
            let expected = format!("list.txt, line 3: {said}");
            let message = failure.message().unwrap();
            assert!(message.starts_with(&expected), "{message}");
        }
    }
}

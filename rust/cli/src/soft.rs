//! Soft values as text: whole numbers with separators between them; `#` starts a comment.

use crate::failure::Failure;
use crate::inputs::Input;
use crate::text::{lines, shown};

/// A soft value and the line that it stood on.
#[derive(Clone, Copy, Debug, PartialEq, Eq)]
pub struct Soft {
    pub value: i32,
    pub line: usize,
}

/// Reads soft values. Whether they are few enough and small enough is the library's to judge.
///
/// # Errors
/// Something that is not a whole number of 32 bits.
pub fn read(input: &Input) -> Result<Vec<Soft>, Failure> {
    let mut values = Vec::new();
    for (line, words) in lines(&input.text) {
        for word in words {
            let value = word.parse().map_err(|_| wrong(&input.source, line, word))?;
            values.push(Soft { value, line });
        }
    }
    Ok(values)
}

fn wrong(source: &str, line: usize, word: &str) -> Failure {
    Failure::File(format!(
        "{source}, line {line}: `{}`: expected whole numbers from -127 to 127, with spaces, commas \
         or new lines between them",
        shown(word)
    ))
}

/// The values without their lines.
pub fn values(soft: &[Soft]) -> Vec<i32> {
    soft.iter().map(|soft| soft.value).collect()
}

/// The noise count of a row of so many values, as a row of a table.
pub fn noise(count: usize, values: usize) -> String {
    format!("noise count              {count} of {values} soft values")
}

/// What is said besides where no message was found in values that look like bits; else nothing.
pub fn hint(soft: &[Soft]) -> &'static str {
    let is_bit = |soft: &Soft| matches!(soft.value, 0 | 1);
    match !soft.is_empty() && soft.iter().all(is_bit) {
        true => "\nall values are 0 or 1: are they bits? `dci encode --as soft` prints soft values",
        false => "",
    }
}

#[cfg(test)]
mod tests {
    use super::*;

    fn read(text: &str) -> Result<Vec<Soft>, Failure> {
        let (source, text) = ("row.txt".into(), text.into());
        super::read(&Input { source, text })
    }

    #[test]
    fn values_stand_between_spaces_commas_and_comments() {
        let read = read("1, -2,3\n# four follows\n 4 # and 5\n\n-2147483648").unwrap();
        assert_eq!(values(&read), [1, -2, 3, 4, i32::MIN]);
        assert_eq!(read[3].line, 3);
    }

    #[test]
    fn brackets_semicolons_and_a_byte_order_mark_are_skipped() {
        let read = read("\u{feff}[[1; -2]\n (3){4}; ]").unwrap();
        let values: Vec<(i32, usize)> = read.iter().map(|soft| (soft.value, soft.line)).collect();
        assert_eq!(values, [(1, 1), (-2, 1), (3, 2), (4, 2)]);
    }

    #[test]
    fn what_is_no_number_is_named_with_its_line() {
        for word in ["1.5", "x", "2147483648", "--1"] {
            let said = read(&format!("1 2\n3 {word} 4")).unwrap_err();
            let said = said.message().unwrap();
            assert!(
                said.contains("row.txt, line 2") && said.contains(word),
                "{said}"
            );
        }
    }
}

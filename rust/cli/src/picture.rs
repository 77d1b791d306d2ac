//! Rows of cells as strips of text.

/// Cells in a line of a strip.
pub const WIDTH: usize = 64;

/// Lines of a strip, each with the number of its first cell in front.
pub fn strip(cells: impl Iterator<Item = char>) -> Vec<String> {
    let cells: Vec<char> = cells.collect();
    let line = |(i, line): (usize, &[char])| {
        let line: String = line.iter().collect();
        format!("{:>5}  {line}", i * WIDTH)
    };
    cells.chunks(WIDTH).enumerate().map(line).collect()
}

/// A bit as a cell.
pub fn bit(bit: u8) -> char {
    if bit == 0 { '·' } else { '█' }
}

#[cfg(test)]
mod tests {
    use super::*;

    #[test]
    fn each_line_starts_with_its_place() {
        let lines = strip((0..65).map(|i| bit((i == 64).into())));
        assert_eq!(lines.len(), 2);
        assert_eq!(lines[1], "   64  █");
    }
}

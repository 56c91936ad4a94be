//! `oracle/RESULTS.md`: each program that has results writes the block between its own two lines, or checks it.

use std::fmt::Write;
use std::fs;

const PATH: &str = concat!(env!("CARGO_MANIFEST_DIR"), "/../RESULTS.md");
const NAME: &str = "oracle/RESULTS.md";

/// Writes the block, or returns a message if the file has another one.
pub fn settle(name: &str, block: &str, writes: bool) -> Result<(), String> {
    let file = fs::read_to_string(PATH).map_err(|error| format!("{NAME}: {error}"))?;
    let [begin, end] = ["BEGIN", "END"].map(|word| format!("<!-- {word} generated {name} -->\n"));
    let missing = || format!("{NAME}: no lines BEGIN and END of the block {name}");
    let (before, rest) = file.split_once(&begin).ok_or_else(missing)?;
    let (present, after) = rest.split_once(&end).ok_or_else(missing)?;
    if present == block {
        return Ok(());
    }
    if writes {
        let file = [before, &begin, block, &end, after].concat();
        return fs::write(PATH, file).map_err(|error| format!("{NAME}: {error}"));
    }
    let mut differing = present.lines().zip(block.lines());
    let first = differing.find(|(present, block)| present != block);
    let [present, block] = first.map_or(["", ""], |(present, block)| [present, block]);
    Err(format!(
        "{NAME}: the block {name} is not what this run gives; --write replaces it\n  file: {present}\n  run:  {block}"
    ))
}

/// A table as lines of text: the first column to the left, the others to the right.
pub fn table(heads: &[&str], rows: &[Vec<String>]) -> String {
    let heads: Vec<String> = heads.iter().map(|&head| head.to_owned()).collect();
    let lines: Vec<&Vec<String>> = [&heads].into_iter().chain(rows).collect();
    let width = |column: usize| lines.iter().map(|line| line[column].chars().count()).max();
    let widths: Vec<usize> = (0..heads.len()).filter_map(width).collect();
    let mut text = String::new();
    for line in lines {
        let mut out = format!("    {:<1$}", line[0], widths[0]);
        for (cell, width) in line.iter().zip(&widths).skip(1) {
            let _ = write!(out, "  {cell:>width$}");
        }
        let _ = writeln!(text, "{}", out.trim_end());
    }
    text
}

/// With commas between thousands.
pub fn number(count: u64) -> String {
    let digits = count.to_string();
    let mut text = String::new();
    for (place, digit) in digits.chars().enumerate() {
        if place > 0 && (digits.len() - place).is_multiple_of(3) {
            text.push(',');
        }
        text.push(digit);
    }
    text
}

#[cfg(test)]
mod tests {
    use super::number;

    #[test]
    fn thousands_are_separated() {
        let counts = [0, 7, 999, 1_000, 65_536, 42_156_485];
        let expected = ["0", "7", "999", "1,000", "65,536", "42,156,485"];
        assert_eq!(counts.map(number), expected);
    }
}

//! Prints the likelihood table that this library holds, as upstream computes it, an entry a line: `literals` for the source
//! of the library, `patterns` for the bits.

use std::process::ExitCode;
use theirs::{BUILT_IN, likelihood_table};

fn main() -> ExitCode {
    let mut arguments = std::env::args().skip(1);
    match (arguments.next().as_deref(), arguments.next()) {
        (Some("literals"), None) => print(literal),
        (Some("patterns"), None) => print(pattern),
        _ => {
            eprintln!("usage: table literals|patterns");
            return ExitCode::FAILURE;
        }
    }
    ExitCode::SUCCESS
}

fn print(line: fn(f32) -> String) {
    for entry in likelihood_table(BUILT_IN) {
        println!("{}", line(entry));
    }
}

/// The shortest decimal that is read back as the same float, with a decimal point, as a line of the source.
fn literal(entry: f32) -> String {
    // `Display` gives the shortest digits and never an exponent, but no point for a whole number; `Debug` gives an
    // exponent to numbers near 0.
    let mut digits = entry.to_string();
    if !digits.contains('.') {
        digits.push_str(".0");
    }
    let read_back: f32 = digits.parse().expect("a float");
    assert_eq!(read_back.to_bits(), entry.to_bits(), "{digits}");
    format!("    {digits},")
}

fn pattern(entry: f32) -> String {
    format!("{:X}", entry.to_bits())
}

//! What the answers show of the least weight (document 02, 2.8).

use crate::subject::Subject;
use matches::cuts::{CASES, ORDERS, Shown, WRONG};
use matches::given::INVALID;

/// A wrong program that no answer would show, and a case that never comes up, are failures of the inputs.
pub fn subjects(shown: &Shown) -> Vec<Subject> {
    let of = |name: &str, cases: Vec<String>, counts: &[usize]| {
        let counts = counts.iter().map(|&count| count as u64);
        Subject::of_cases(name, cases.into_iter().zip(counts))
    };
    let wrong = WRONG.iter().map(|wrong| wrong.name.to_owned());
    let cases = CASES.iter().map(|case| case.name.to_owned());
    let invalid = INVALID
        .iter()
        .map(|least| format!("{:08X}", least.to_bits()));
    let orders = ORDERS
        .iter()
        .map(|[first, second]| format!("{first} and {second}"));
    vec![
        of(
            "wrong programs for the least weight that show",
            wrong.collect(),
            &shown.wrong,
        ),
        of("shots with a least weight", cases.collect(), &shown.cases),
        of(
            "least weights that check 9 refuses",
            invalid.collect(),
            &shown.invalid,
        ),
        of(
            "9 by the least weight and another check",
            orders.collect(),
            &shown.orders,
        ),
    ]
}

//! Cases whose sheets have many rows: roots, errors and numbers of several digits.

use super::Case;

/// A root with a literal CMR, one with a missing part and one without an expression, as the example program has them.
const FIVE_ROOTS: &str = include_str!("../../c/roots.simp");

pub fn cases() -> Vec<Case> {
    let lines = |count: usize, line: fn(usize) -> String| (0..count).map(line).collect::<String>();
    vec![
        Case::new("five roots, one with a literal CMR", FIVE_ROOTS),
        Case::new("341 roots", lines(341, |n| format!("n{n} := unit\n"))),
        Case::new(
            "a missing name under many roots",
            lines(300, |n| format!("r{n} := a\n")) + "a := nosuch",
        ),
        Case::new(
            "every kind of error many times",
            lines(60, |n| {
                format!("p{n} := x{n} p{n} := iden prim{n} := p{n} q{n} : 1 -> 2\n")
            }),
        ),
        Case::new(
            "places of several digits",
            "\n".repeat(1_200) + &" ".repeat(1_100) + "main := \u{a0}",
        ),
        Case::new(
            "rows of several digits",
            "\n".repeat(1_200) + &" ".repeat(1_100) + "main := nosuch _ := main",
        ),
    ]
}

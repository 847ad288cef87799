//! All short series of tokens, behind fronts that each stop at another place of the grammar.

use super::{Comparison, List};
use crate::run::Piece;

/// One token or a few of every role in the grammar, some of which are refused where they are taken. `#` stands for a
/// literal CMR.
const TOKENS: [&str; 28] = [
    ":=",
    "->",
    "#{",
    "(",
    ")",
    "+",
    "*",
    ":",
    "}",
    "?",
    "const",
    "assertl",
    "assertr",
    "fail",
    "pair",
    "take",
    "unit",
    "_",
    "1",
    "2^3",
    "2^8",
    "2^4294967296",
    "0b1",
    "0x123",
    "#",
    "jet_a",
    "jet_b",
    "a",
];

/// What stands before the series.
const FRONTS: [&str; 10] = [
    "a := ",
    "a : ",
    "",
    "a := unit ",
    "a := unit : ",
    "a : 1 -> ",
    "a := assertl unit ",
    "a := assertr ",
    "a := pair unit ",
    "a : ( 1 ",
];

/// Behind how many of the fronts a quick run puts all series of three tokens.
const QUICK_FRONTS: usize = 2;

const JETS: &[u8] = b"a\n";

/// Series of up to three tokens behind every front; in a full run those of four behind `a :=` too.
pub fn short_series(piece: &Piece, comparison: &mut Comparison) {
    let list = List::new(JETS);
    for (number, front) in FRONTS.into_iter().enumerate() {
        let most = match number {
            0 if !piece.scale.quick => 4,
            _ if piece.scale.quick && number >= QUICK_FRONTS => 2,
            _ => 3,
        };
        for length in 0..=most {
            all_series(front, length, piece, |source| {
                comparison.compare(source, &list)
            });
        }
    }
}

/// All series of this many tokens behind a front, as far as the piece takes them.
fn all_series(front: &str, length: u32, piece: &Piece, mut each: impl FnMut(&[u8])) {
    let literal = format!("#{}", "0F".repeat(32));
    let mut source = String::new();
    for number in (0..TOKENS.len().pow(length)).filter(|&number| piece.takes(number)) {
        source.clear();
        source.push_str(front);
        let mut left = number;
        for _ in 0..length {
            let token = TOKENS[left % TOKENS.len()];
            source.push_str(if token == "#" { &literal } else { token });
            source.push(' ');
            left /= TOKENS.len();
        }
        each(source.as_bytes());
    }
}

#[cfg(test)]
mod tests {
    use super::*;
    use crate::expected::parsed_with;
    use crate::scale::Scale;
    use std::collections::HashSet;

    #[test]
    fn series_are_all_there_and_many_are_read() {
        let scale = Scale {
            quick: true,
            seed: 1,
            count: 1,
        };
        let piece = Piece {
            scale,
            number: 0,
            of: 1,
        };
        let (mut seen, mut answers) = (HashSet::new(), HashSet::new());
        for front in FRONTS {
            for length in 0..=2 {
                all_series(front, length, &piece, |source| {
                    seen.insert(source.to_vec());
                    answers.insert(parsed_with(source, &oracle::Jets::new(JETS)).0.no);
                });
            }
        }
        // a few stand behind two fronts
        assert!(seen.len() > 9 * (1 + 28 + 28 * 28), "{}", seen.len());
        assert_eq!(answers, HashSet::from([0, 6, 7, 8, 10, 11, 12]));
    }
}

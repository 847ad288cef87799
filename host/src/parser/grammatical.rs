//! All files of one line that the grammar takes, up to some number of tokens, so that every small table is compared.

use super::{Comparison, List};
use crate::run::Piece;

const JETS: &[u8] = b"a\n";

/// Expressions of one and of two tokens.
const LEAVES: [&[&str]; 2] = [&["unit", "b", "jet_a"], &["?h", "const 0b1"]];

/// Types of one token.
const ATOMS: [&str; 5] = ["1", "_", "x", "2^1", "2^8"];

/// The most tokens of an expression and of a type, in a quick and in a full run.
const QUICK: (usize, usize) = (6, 5);
const FULL: (usize, usize) = (8, 7);

/// All expressions, without and with types behind them.
pub fn all_expressions(piece: &Piece, comparison: &mut Comparison) {
    let list = List::new(JETS);
    let (most, _) = if piece.scale.quick { QUICK } else { FULL };
    let expressions = expressions(most, &LEAVES).concat();
    for (_, text) in (0..)
        .zip(expressions)
        .filter(|&(number, _)| piece.takes(number))
    {
        comparison.compare(format!("a := {text}").as_bytes(), &list);
        comparison.compare(format!("a := {text} : 2 -> 1 b := iden").as_bytes(), &list);
    }
}

/// All types as source and as target, and each with each short one.
pub fn all_types(piece: &Piece, comparison: &mut Comparison) {
    let list = List::new(JETS);
    let (_, most) = if piece.scale.quick { QUICK } else { FULL };
    let (types, short) = (types(most).concat(), types(3).concat());
    for (_, text) in (0..).zip(types).filter(|&(number, _)| piece.takes(number)) {
        comparison.compare(format!("a : {text} -> 1").as_bytes(), &list);
        comparison.compare(
            format!("a := unit : 2 -> {text} b : _ -> x").as_bytes(),
            &list,
        );
        let each = short.iter().filter(|_| text.len() <= "(2^8)".len());
        each.for_each(|other| {
            comparison.compare(format!("a : {text} -> {other}").as_bytes(), &list);
        });
    }
}

/// The expressions of each number of tokens, from 0 on, with these of one token, of two and so on. One keyword stands for
/// those that are read alike.
pub fn expressions(most: usize, leaves: &[&[&str]]) -> Vec<Vec<String>> {
    let literal = format!("#{}", "a5".repeat(32));
    let mut all: Vec<Vec<String>> = vec![Vec::new()];
    for size in 1..=most {
        let own = leaves.get(size - 1).copied().unwrap_or_default();
        let mut found: Vec<String> = own.iter().map(|leaf| leaf.to_string()).collect();
        let of = |less: usize| size.checked_sub(less).map_or(&[][..], |size| &all[size]);
        found.extend(of(1).iter().map(|child| format!("take {child}")));
        for child in of(2) {
            found.push(format!("({child})"));
            found.push(format!("assertl {child} {literal}"));
            found.push(format!("assertr {literal} {child}"));
        }
        found.extend(two(&all, size, 1).map(|(left, right)| format!("pair {left} {right}")));
        for (left, right) in two(&all, size, 3) {
            found.push(format!("assertl {left} #{{ {right} }}"));
            found.push(format!("assertr #{{ {left} }} {right}"));
        }
        all.push(found);
    }
    all
}

/// Any two texts that have `size` tokens together with `less` others.
fn two(all: &[Vec<String>], size: usize, less: usize) -> impl Iterator<Item = (&String, &String)> {
    let sum = size.saturating_sub(less);
    let pairs = move |left: usize| {
        let right = &all[sum - left];
        all[left]
            .iter()
            .flat_map(move |one| right.iter().map(move |two| (one, two)))
    };
    (1..sum).flat_map(pairs)
}

/// The types of each number of tokens, from 0 on: a type and an operator and an atom, which is one token or in parentheses.
fn types(most: usize) -> Vec<Vec<String>> {
    let (mut atoms, mut all): (Vec<Vec<String>>, Vec<Vec<String>>) = (vec![vec![]], vec![vec![]]);
    for size in 1..=most {
        let inside = size.checked_sub(2).map_or(&[][..], |size| &all[size]);
        let mut atom: Vec<String> = inside.iter().map(|inside| format!("({inside})")).collect();
        if size == 1 {
            atom.extend(ATOMS.map(str::to_owned));
        }
        atoms.push(atom.clone());
        for left in 1..size.saturating_sub(1) {
            for (one, two) in all[left]
                .iter()
                .flat_map(|one| atoms[size - 1 - left].iter().map(move |two| (one, two)))
            {
                atom.push(format!("{one}+{two}"));
                atom.push(format!("{one} * {two}"));
            }
        }
        all.push(atom);
    }
    all
}

#[cfg(test)]
mod tests {
    use super::*;
    use crate::expected::parsed_with;
    use std::collections::HashSet;

    /// How many texts there are, which are all different and of their number of tokens, and read behind a front.
    fn sizes(all: &[Vec<String>], front: &str, behind: &str) -> Vec<usize> {
        for (size, texts) in all.iter().enumerate() {
            let different: HashSet<&String> = texts.iter().collect();
            assert_eq!(different.len(), texts.len());
            for text in texts {
                assert_eq!(oracle::lex(text).tokens.len(), size, "{text}");
                let source = format!("{front}{text}{behind}");
                let (e, _) = parsed_with(source.as_bytes(), &oracle::Jets::new(JETS));
                assert_eq!(e.no, 0, "{source}");
            }
        }
        all.iter().map(Vec::len).collect()
    }

    #[test]
    fn expressions_are_read_and_all_there() {
        assert_eq!(
            sizes(&expressions(4, &LEAVES), "a := ", ""),
            [0, 3, 5, 23, 68]
        );
    }

    #[test]
    fn types_are_read_and_all_there() {
        assert_eq!(sizes(&types(5), "a : ", " -> 1"), [0, 5, 0, 55, 0, 655]);
    }
}

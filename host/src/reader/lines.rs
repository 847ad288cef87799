//! Illegal, repeated, incomplete and typed lines in all mixes, and names whose texts are nearly the same.

use super::Comparison;
use crate::list::List;
use crate::random::Random;
use crate::run::Piece;

/// Lines of few names: legal and illegal, with an expression, types or both.
pub const FORMS: [&str; 16] = [
    "a := unit",
    "a := b",
    "a := ( pair a b ) : 1 -> 2",
    "a : 2 -> _",
    "a : _ -> x",
    "b := a",
    "b := iden : x * 1 -> 2^8",
    "b : 1 -> 1",
    "c := assertl a #{ b }",
    "_ := a",
    "_ : 1 -> 1",
    "prim := b",
    "prim : 2 -> 2",
    "prima := prima : 1 -> 1",
    "pri := prim",
    "Prim := pair _ pri",
];

/// Names of which many begin with others, and some are illegal or nearly so.
const TEXTS: [&str; 25] = [
    "a", "aa", "aaa", "ab", "aab", "b", "ba", "a'", "a.", "a-", "A", "a1", "a11", "main", "mai",
    "mainn", "pri", "Prim", "_a", "__", "_", "prim", "prima", "unit_", "jet_",
];

/// How many of so many files with nearly the same names a quick run takes.
const QUICK_TAKES: usize = 4;

/// Lengths of long names.
const LENGTHS: [usize; 12] = [1, 2, 3, 7, 8, 9, 63, 64, 65, 300, 1_000, 10_000];

/// All series of up to three lines, in a full run of up to four.
pub fn mixes(piece: &Piece, comparison: &mut Comparison) {
    let list = List::new(b"");
    let most = if piece.scale.quick { 3 } else { 4 };
    for length in 0..=most {
        for number in (0..FORMS.len().pow(length)).filter(|&number| piece.takes(number)) {
            let source = series(number, length);
            comparison.compare(source.as_bytes(), &list);
        }
    }
}

/// A series of lines: the digits of its number.
fn series(number: usize, length: u32) -> String {
    let mut left = number;
    let line = |_| {
        let form = FORMS[left % FORMS.len()];
        left /= FORMS.len();
        form
    };
    (0..length).map(line).collect::<Vec<&str>>().join("\n")
}

/// Any three texts as names, used and not; in a quick run some of them.
pub fn texts(piece: &Piece, comparison: &mut Comparison) {
    let list = List::new(b"");
    let mut random = Random::new(piece.seed(0x7E));
    for number in (0..TEXTS.len().pow(3)).filter(|&number| piece.takes(number)) {
        if piece.scale.quick && !random.chance(1, QUICK_TAKES) {
            continue;
        }
        let [one, two, three] = [1, 25, 625].map(|unit| TEXTS[number / unit % TEXTS.len()]);
        for source in [
            format!("{one} := {two}\n{three} := unit"),
            format!("{one} : {two} -> {three}\n{two} := pair {one} {three}"),
        ] {
            comparison.compare(source.as_bytes(), &list);
        }
    }
}

/// Names of many lengths that differ in one byte, or in their length, or not at all.
pub fn long_names(piece: &Piece, comparison: &mut Comparison) {
    let list = List::new(b"");
    let lengths = LENGTHS.into_iter().enumerate();
    for (_, length) in lengths.filter(|&(number, _)| piece.takes(number)) {
        let name = "n".repeat(length);
        let mut others = vec![name.clone(), format!("{name}n"), name[1..].to_owned()];
        for at in [0, length / 2, length - 1] {
            let mut other = name.clone().into_bytes();
            other[at] = b'm';
            others.push(String::from_utf8_lossy(&other).into_owned());
        }
        for other in others.iter().filter(|other| !other.is_empty()) {
            for source in [
                format!("{name} := {other}\n{other} := unit"),
                format!("{other} : 1 -> 1\n{name} := unit : {other} -> 2"),
                format!("{name} := unit\n{other} := pair {other} {name}\n{name} := {other}"),
                format!("prim{name} := {other}\nprim{other} : 1 -> 1\nx := prim{name}"),
            ] {
                comparison.compare(source.as_bytes(), &list);
            }
        }
    }
}

#[cfg(test)]
mod tests {
    use super::*;
    use crate::expected::expected_with;
    use std::collections::HashSet;

    #[test]
    fn series_are_read_and_have_errors_of_every_kind() {
        let jets = oracle::Jets::new(b"");
        let mut kinds = HashSet::new();
        for number in 0..FORMS.len().pow(2) {
            let e = expected_with(series(number, 2).as_bytes(), &jets);
            assert_eq!((e.no, e.counts[1]), (0, 2));
            kinds.extend(e.tables[6].chunks(4).map(|error| error[0]));
        }
        assert_eq!(kinds, HashSet::from([1, 2, 3, 4]));
    }

    #[test]
    fn texts_are_names() {
        for text in TEXTS {
            let lexed = oracle::lex(text);
            let kinds: Vec<u32> = lexed.tokens.iter().map(|token| token.kind).collect();
            assert!(kinds == [34] || text == "_", "{text}");
        }
    }
}

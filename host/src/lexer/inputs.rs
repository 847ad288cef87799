//! The sources that are compared: all short ones over telling letters, and many longer ones.

use super::reference::WORDS;
use super::{limits, texts, Comparison};
use crate::generate::{byte_soup, damage_bytes, generate, token_soup};
use crate::random::{mixed, Random};
use crate::scale::Scale;

/// A part of the comparison: its name, and what it compares.
pub type Part = (&'static str, fn(&Scale, &mut Comparison));

/// The parts of the comparison of lexers.
pub const PARTS: [Part; 13] = [
    ("lexer, all of up to 3 telling letters", up_to_three_letters),
    ("lexer, 4 telling letters", four_letters),
    ("lexer, 5 to 24 telling letters", more_letters),
    ("lexer, all pairs of bytes", all_pairs),
    ("lexer, texts on the edge and their pairs", texts::pairs),
    (
        "lexer, tokens with one byte more, less or other",
        texts::one_byte_off,
    ),
    ("lexer, soups of tokens and of bytes", soups),
    ("lexer, generated files, whole and damaged", generated_files),
    ("lexer, about 1,024 tokens", limits::token_counts),
    ("lexer, about 32,768 bytes", limits::byte_counts),
    (
        "lexer, any byte at every place of a file",
        limits::bytes_at_every_place,
    ),
    (
        "lexer, ill-formed bytes at every place of a file",
        limits::ill_formed_at_every_place,
    ),
    ("lexer, tables of every length", limits::table_lengths),
];

/// Letters that tell the rules of tokens apart, the last one of two bytes.
const LETTERS: [&str; 33] = [
    ":", "=", "-", ">", "#", "{", "}", "(", ")", "+", "*", "?", "_", "'", ".", "0", "1", "2", "9",
    "^", "b", "x", "a", "f", "j", "e", "t", "A", " ", "\t", "\r", "\n", "\u{e9}",
];

/// How many sources of few letters are made for one input of another random part.
const SHORT: usize = 25;

fn up_to_three_letters(_: &Scale, comparison: &mut Comparison) {
    for length in 0..=3 {
        all_strings(length, comparison);
    }
}

/// All of them in a full run, random ones in a quick one.
fn four_letters(scale: &Scale, comparison: &mut Comparison) {
    if !scale.quick {
        return all_strings(4, comparison);
    }
    let mut random = Random::new(mixed(scale.seed, 0x4444));
    for _ in 0..scale.count * SHORT {
        comparison.compare(letters(&LETTERS, 4, &mut random).as_bytes());
    }
}

/// Half of them over all letters, half over those that lex alone, so that many lex to their end.
fn more_letters(scale: &Scale, comparison: &mut Comparison) {
    let lexes = |letter: &&str| oracle::lex(letter).bad.is_none();
    let lexing: Vec<&str> = LETTERS.into_iter().filter(lexes).collect();
    let mut random = Random::new(mixed(scale.seed, 0x5555));
    for _ in 0..scale.count * SHORT / 4 {
        for set in [&LETTERS[..], &lexing] {
            let length = random.between(5, 24);
            comparison.compare(letters(set, length, &mut random).as_bytes());
        }
    }
}

/// All strings of this many letters.
fn all_strings(length: u32, comparison: &mut Comparison) {
    let mut source = String::new();
    for number in 0..LETTERS.len().pow(length) {
        source.clear();
        let mut left = number;
        for _ in 0..length {
            source.push_str(LETTERS[left % LETTERS.len()]);
            left /= LETTERS.len();
        }
        comparison.compare(source.as_bytes());
    }
}

/// A random string of this many letters of a set.
fn letters(set: &[&str], length: usize, random: &mut Random) -> String {
    (0..length).map(|_| *random.pick(set)).collect()
}

fn all_pairs(_: &Scale, comparison: &mut Comparison) {
    for number in 0..=u16::MAX {
        comparison.compare(&number.to_be_bytes());
    }
}

fn soups(scale: &Scale, comparison: &mut Comparison) {
    let mut random = Random::new(mixed(scale.seed, 0x5009));
    for _ in 0..scale.count {
        comparison.compare(&token_soup(&mut random).source);
        comparison.compare(&byte_soup(&mut random).source);
    }
}

/// Files of every family and a damaged copy of each; some also with a table that is too short.
fn generated_files(scale: &Scale, comparison: &mut Comparison) {
    let mut random = Random::new(mixed(scale.seed, 0x1E8));
    for _ in 0..scale.count {
        let file = generate(&mut random);
        comparison.files[file.shape as usize] += 1;
        let mut source = file.source;
        comparison.compare(&source);
        if random.chance(1, 8) {
            comparison.compare_lent(&source, random.below(WORDS));
        }
        damage_bytes(&mut source, &mut random);
        comparison.compare(&source);
    }
}

#[cfg(test)]
mod tests {
    use super::LETTERS;
    use std::collections::HashSet;

    #[test]
    fn letters_are_characters_and_different() {
        let different: HashSet<&str> = LETTERS.into_iter().collect();
        assert_eq!(different.len(), LETTERS.len());
        assert!(LETTERS.iter().all(|letter| letter.chars().count() == 1));
    }
}

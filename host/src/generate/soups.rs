//! Tokens and bytes in any order.

use super::layout::joins;
use super::vocabulary::{
    BAD_EXPONENTS, BROKEN, GOOD_EXPONENTS, ILLEGAL_NAMES, KEYWORDS, NAMES, PUNCTUATION, SOUP_BYTES,
};
use super::{jets, literals, File, Shape};
use crate::random::Random;

/// How the tokens of a soup are set apart.
#[derive(Clone, Copy)]
enum Between {
    Spaces,
    Nothing,
    Either,
    WhereNeeded,
}

/// Tokens in any order, with or without white space between them.
pub fn token_soup(random: &mut Random) -> File {
    let count = match random.below(16) {
        0..=11 => random.below(24),
        12..=14 => random.below(120),
        _ => random.below(1100),
    };
    let between = *random.pick(&[
        Between::Spaces,
        Between::Nothing,
        Between::Either,
        Between::WhereNeeded,
    ]);
    let mut source = if random.chance(1, 3) {
        "a := ".to_owned()
    } else {
        String::new()
    };
    let mut last = String::new();
    for _ in 0..count {
        let next = any_text(random);
        if space_between(between, &last, &next, random) {
            source.push(' ');
        }
        source.push_str(&next);
        last = next;
    }
    File {
        shape: Shape::TokenSoup,
        source: source.into_bytes(),
        jets: jets::any_list(random),
    }
}

/// Bytes in any order, from those that tell the rules apart.
pub fn byte_soup(random: &mut Random) -> File {
    let count = match random.below(16) {
        0..=7 => random.below(12),
        8..=14 => random.below(60),
        _ => random.below(2000),
    };
    let ascii: Vec<u8> = SOUP_BYTES.iter().copied().filter(u8::is_ascii).collect();
    let set = if random.chance(2, 3) {
        &ascii[..]
    } else {
        SOUP_BYTES
    };
    let source = (0..count).map(|_| *random.pick(set)).collect();
    File {
        shape: Shape::ByteSoup,
        source,
        jets: jets::any_list(random),
    }
}

/// Any token.
pub fn any_token(random: &mut Random) -> String {
    match random.below(24) {
        0..=7 => random.text(&PUNCTUATION),
        8..=12 => random.text(&KEYWORDS),
        13..=15 => random.text(&NAMES),
        16 => random.text(&ILLEGAL_NAMES),
        17 => random.text(&["1", "2", "_"]),
        18 => format!("2^{}", random.pick(&GOOD_EXPONENTS)),
        19 => format!("2^{}", random.pick(&BAD_EXPONENTS)),
        20 => literals::word_at_edge(random),
        21 => literals::entropy_at_edge(random),
        22 => literals::cmr(random),
        _ => random.pick(&jets::all()).clone(),
    }
}

/// Any token, or a text that is none.
fn any_text(random: &mut Random) -> String {
    match random.below(64) {
        0 => random.text(&BROKEN),
        1 => {
            let mut cut = literals::cmr(random);
            cut.pop();
            cut
        }
        2 => format!("{}0", literals::cmr(random)),
        3 => "--".to_owned(),
        4 => random.text(&["\n", "\t", "\r", "\u{b}", "\u{a0}", "\u{e9}"]),
        _ => any_token(random),
    }
}

fn space_between(between: Between, last: &str, next: &str, random: &mut Random) -> bool {
    match between {
        Between::Spaces => true,
        Between::Nothing => false,
        Between::Either => random.chance(1, 2),
        Between::WhereNeeded => joins(last, next),
    }
}

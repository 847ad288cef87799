//! Texts picked by hand, at the edges of the rules of tokens, and tokens with one byte off.

use super::Comparison;
use crate::generate::{KEYWORDS, PUNCTUATION};
use crate::scale::Scale;

/// Jets, symbols, dashes and arrows, with `|` between them.
const WORDS: &str = "jet_|jet_A|jet_aB|jet_a|jet_0|jet__|jet_a_1|jet_a-|jet_a.|jet_a'|jet_\u{e9}|\
    jet|Jet_a|_jet_a|a|A|Z9|a9|a.b'c-d_9|'|''|'a|.|..|.5|_|__|_1|_a|_'|a--b|a--|-|-a|-.|.--|'--|\
    ->|-->|->>|->-|->--|- >|a->b|_->|-a->";

/// Numbers, literals, punctuation and what is close to them.
const SIGNS: &str = "1|2|0|3|9|10|11|12|22|1_|2a|2^|2^0|2^1|2^9|2^10|2^01|2^1a|2^1^1|2^^1|2 ^1|\
    2^ 1|2^-1|2^99999999999|1^1|^|0b|0b0|0b12|0b2|0b1b|0b1a|0b 1|0B1|0x|0xg|0xA|0xaA|0x9g|0x0f|\
    0X1|00|01|#|##|#{|#{{|# {|#}|#g|:|:=|::=|: =|:==|=|=:|{|(|)|}|+|*|?|?a";

/// Nothing, white space, comments, and characters that are none of these.
const BLANKS: &str = "| |\t|\r|\n|\r\n|\u{b}|\u{c}|\0|\u{7f}|\u{85}|\u{a0}|\u{feff}|\u{2028}|\
    \u{3000}|\u{e9}|\u{20ac}|\u{1f980}|@|/|\\|\"|~|--|--b|--b\n|--\n|--\r|--b\rc|--b\r\nc|\
    --b\u{b}c\n|--\0\n|--\u{e9}|--\u{1f980}\n|--@\na|--a\n@|-- a -- b\n|---|---\n|-----a\n|a --b|\
    a---b|)--b\n(|1--b|_--b|0b1--b|unit--b|unit --b";

/// Tokens that are neither punctuation nor keywords, and a comment.
const OTHERS: [&str; 9] = [
    "_", "1", "2", "2^10", "0b01", "0x9f", "jet_a0", "a-.'_Z9", "--b",
];

/// Each text, and any two with nothing and with a line feed between them.
pub fn pairs(_: &Scale, comparison: &mut Comparison) {
    let texts = texts();
    for first in &texts {
        for second in &texts {
            comparison.compare([first.as_str(), second].concat().as_bytes());
            comparison.compare([first, "\n", second].concat().as_bytes());
        }
    }
}

/// Every token with one byte put in, taken out or changed, at every place and to every byte.
pub fn one_byte_off(_: &Scale, comparison: &mut Comparison) {
    for token in tokens() {
        let token = token.as_bytes();
        for at in 0..=token.len() {
            let (front, back) = token.split_at(at);
            let behind = back.get(1..).unwrap_or_default();
            comparison.compare(&[front, behind].concat());
            for byte in 0..=u8::MAX {
                comparison.compare(&[front, &[byte], back].concat());
                comparison.compare(&[front, &[byte], behind].concat());
            }
        }
    }
}

/// All texts picked by hand, the keywords and literal CMRs with and without a digit too few or
/// too many. The empty text is among them, so their pairs hold each one alone.
fn texts() -> Vec<String> {
    let picked = [WORDS, SIGNS, BLANKS].into_iter();
    let texts = picked.flat_map(|list| list.split('|')).chain(KEYWORDS);
    let mut texts: Vec<String> = texts.map(str::to_owned).collect();
    for digits in ["0", "f", "F", "9aA"] {
        texts.extend([63, 64, 65].map(|count| cmr(digits, count)));
    }
    texts
}

fn tokens() -> Vec<String> {
    let tokens = PUNCTUATION.into_iter().chain(KEYWORDS).chain(OTHERS);
    let mut tokens: Vec<String> = tokens.map(str::to_owned).collect();
    tokens.push(cmr("0aF", 64));
    tokens
}

/// `#` and so many of the digits, over and over.
fn cmr(digits: &str, count: usize) -> String {
    let digits = digits.chars().cycle().take(count);
    "#".chars().chain(digits).collect()
}

#[cfg(test)]
mod tests {
    use super::{texts, tokens};
    use std::collections::HashSet;

    /// The kinds of those texts that are one token and nothing else.
    fn kinds(texts: &[String]) -> HashSet<u32> {
        let lexed = texts.iter().map(|text| (text, oracle::lex(text)));
        lexed
            .filter(|(text, lexed)| lexed.tokens.first().is_some_and(|t| t.len == text.len()))
            .map(|(_, lexed)| lexed.tokens[0].kind)
            .collect()
    }

    #[test]
    fn every_kind_of_token_is_there() {
        let all: HashSet<u32> = (1..=34).collect();
        assert_eq!(kinds(&texts()), all);
        assert_eq!(kinds(&tokens()), all);
    }

    #[test]
    fn texts_are_different_and_one_is_empty() {
        let texts = texts();
        let different: HashSet<&String> = texts.iter().collect();
        assert_eq!(different.len(), texts.len());
        assert!(different.contains(&String::new()));
    }
}

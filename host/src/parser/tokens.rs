//! Files cut at every token, and files with one token replaced, put in or taken out.

use super::{Comparison, List};
use crate::generate::{File, Shape, KEYWORDS, PUNCTUATION};
use crate::random::Random;
use crate::run::Piece;

/// Files that together hold every rule of the grammar. `#` stands for a literal CMR, `%` for a literal of 128 bits.
const FILES: [&str; 10] = [
    "a := assertl unit #{ pair a b }",
    "a := assertr #{ unit } iden : 1 * 2 -> 2^8",
    "a := assertl ( take iden ) # : _ -> 1",
    "a := assertr # ? h b : 1 -> x",
    "a : ( 1 + 2 ) * 2^4 -> _ + x",
    "main := comp ( pair ? h const 0b01 ) case take iden drop witness",
    "a := unit b := iden c : 1 -> 1 _ := _",
    "a := disconnect injl injr unit b",
    "a := fail % b := jet_verify",
    "a : ( ( 2 ) ) -> ( _ * 1 )",
];

const JETS: &[u8] = b"verify\nadd_32\n";

/// Tokens that are neither punctuation nor keywords, of every kind, good and refused.
const OTHERS: [&str; 18] = [
    "_",
    "1",
    "2",
    "2^1",
    "2^8",
    "2^3",
    "2^4294967296",
    "0b1",
    "0b111",
    "0xff",
    "0xfff",
    "%",
    "#",
    "jet_verify",
    "jet_nosuch",
    "a",
    "prim",
    "a--b",
];

/// Texts that lex as no token or as other ones than they seem.
const BROKEN: [&str; 5] = ["@", "2^0", "0b", "--", ""];

/// The most tokens of a generated file that is cut or changed.
const MOST_TOKENS: usize = 150;

/// A file is cut for so many inputs of other random parts, and changed at every token for so many.
const INPUTS_FOR_A_CUT: usize = 80;
const INPUTS_FOR_A_CHANGE: usize = 1_000;

/// Files cut before and behind every token, and what is left behind the cut.
pub fn cut(piece: &Piece, comparison: &mut Comparison) {
    each_file(piece, INPUTS_FOR_A_CUT, |source, list| {
        for token in oracle::lex(source).tokens {
            let (start, end) = (token.start, token.start + token.len);
            comparison.compare(source[..start].as_bytes(), list);
            comparison.compare(source[..end].as_bytes(), list);
            comparison.compare(source[end..].as_bytes(), list);
        }
    });
}

/// Files with each token replaced by one of every kind, one put in before it, or itself taken out.
pub fn changed(piece: &Piece, comparison: &mut Comparison) {
    let kinds = kinds();
    each_file(piece, INPUTS_FOR_A_CHANGE, |source, list| {
        for token in oracle::lex(source).tokens {
            let (start, end) = (token.start, token.start + token.len);
            for kind in &kinds {
                let replaced = [&source[..start], " ", kind, " ", &source[end..]].concat();
                comparison.compare(replaced.as_bytes(), list);
                let put_in = [&source[..start], " ", kind, " ", &source[start..]].concat();
                comparison.compare(put_in.as_bytes(), list);
            }
        }
    });
}

/// The files of the list, in the first piece, and generated ones, one for so many inputs.
fn each_file(piece: &Piece, inputs: usize, mut each: impl FnMut(&str, &List)) {
    let mut random = Random::new(piece.seed(inputs as u64));
    if piece.takes(0) {
        for file in FILES {
            each(&written(file), &List::new(JETS));
        }
    }
    for _ in 0..piece.share(piece.scale.count / inputs) {
        let (source, file) = small_file(&mut random);
        each(&source, &List::new(&file.jets));
    }
}

/// A generated file that is read and has not too many tokens.
fn small_file(random: &mut Random) -> (String, File) {
    loop {
        let shape = *random.pick(&[
            Shape::Sound,
            Shape::Unsound,
            Shape::TypeEdges,
            Shape::LiteralEdges,
        ]);
        let file = shape.make(random);
        let source = String::from_utf8(file.source.clone()).expect("such a file is text");
        if (1..=MOST_TOKENS).contains(&oracle::lex(&source).tokens.len()) {
            return (source, file);
        }
    }
}

/// A text of every kind of token, good and refused, and texts that are none.
fn kinds() -> Vec<String> {
    let texts = PUNCTUATION.into_iter().chain(KEYWORDS);
    texts.chain(OTHERS).chain(BROKEN).map(written).collect()
}

/// The text with its literals written out.
fn written(text: &str) -> String {
    let cmr = format!("#{}", "0123456789abcdEF".repeat(4));
    let long = format!("0x{}", "0123456789abcdef".repeat(2));
    let tokens = text.split(' ').map(|token| match token {
        "#" => cmr.as_str(),
        "%" => long.as_str(),
        other => other,
    });
    tokens.collect::<Vec<&str>>().join(" ")
}

#[cfg(test)]
mod tests {
    use super::*;
    use crate::expected::parsed_with;
    use std::collections::HashSet;

    #[test]
    fn the_files_are_read_and_hold_every_kind() {
        let mut seen = HashSet::new();
        for file in FILES {
            let source = written(file);
            let (e, _) = parsed_with(source.as_bytes(), &oracle::Jets::new(JETS));
            assert_eq!(e.no, 0, "{source}");
            seen.extend(e.tables[0].chunks(3).map(|token| token[0]));
        }
        assert_eq!(seen, (1..=34).collect());
    }

    #[test]
    fn there_is_a_text_of_every_kind() {
        let lexed = kinds()
            .iter()
            .map(|text| oracle::lex(text))
            .collect::<Vec<_>>();
        let one = lexed.iter().filter(|lexed| lexed.tokens.len() == 1);
        let seen: HashSet<u32> = one.map(|lexed| lexed.tokens[0].kind).collect();
        assert_eq!(seen, (1..=34).collect());
    }

    #[test]
    fn small_files_are_text_of_some_tokens() {
        let mut random = Random::new(8);
        for _ in 0..50 {
            let (source, _) = small_file(&mut random);
            let count = oracle::lex(&source).tokens.len();
            assert!((1..=MOST_TOKENS).contains(&count));
        }
    }
}

//! Tables of many lengths, files about as large as they may be, and two refusals in one file.

use super::lent::{ROOM, TABLES, WORDS};
use super::{Comparison, List};
use crate::random::Random;
use crate::run::Piece;

const JETS: &[u8] = b"verify\nadd_32\n";

/// Lines of which each is refused for another reason, 6 to 13 and some of them twice. The last ones are not refused.
/// `%` stands for a literal of 124 bits, `&` for one of 516, `@` for 128 levels.
const LINES: [&str; 16] = [
    "a := )",
    "a unit",
    "a := assertr unit unit",
    "a := const 0b111",
    "a := const _",
    "a := fail %",
    "a := fail _",
    "a := fail &",
    "a := jet_nosuch",
    "a : 2^3 -> 1",
    "a : 1 -> 2^4294967295",
    "a := unit : 2^4294967296 -> 1",
    "a := @ unit",
    "a : ~ 1 -> 1",
    "a := jet_verify",
    "a : 2 -> 2^2",
];

/// What makes a file be refused before the parser looks at it, put behind or before other text.
const EARLIER: [&[u8]; 4] = [b" @", b" \xff", b" 2^0", b"\xed\xa0\x80"];

/// One line each, of so many tokens as the number says; the same line may follow.
const FULL_LINES: [(&str, usize); 9] = [
    ("a := unit\n", 3),
    ("a := b\n", 3),
    ("a : 1 -> 2\n", 5),
    ("a := ?h : 1 -> _\n", 8),
    ("a := take drop injl injr iden\n", 7),
    ("a := pair unit pair iden witness\n", 7),
    ("a := assertr #{ unit } case a b\n", 9),
    ("a : 1 + 2 * x + _ -> ( 2^512 )\n", 13),
    ("a := const 0b01\n", 4),
];

/// What fills a file up to some number of tokens.
const FILLERS: [&str; 3] = [" (", " + 1", " unit"];

/// Tables each of which is just long enough but one, which has a word too few.
pub fn one_word_short() -> [[usize; TABLES]; TABLES] {
    let mut lents = [WORDS; TABLES];
    for (table, lent) in lents.iter_mut().enumerate() {
        lent[table] -= 1;
    }
    lents
}

/// Tables of no words, a word too few, just enough and more, in every combination, and random lengths.
pub fn table_lengths(piece: &Piece, comparison: &mut Comparison) {
    let list = List::new(JETS);
    let mut random = Random::new(piece.seed(0x7AB));
    let (long, many) = (" ".repeat(32_769), "(".repeat(1_025));
    let mut files: Vec<Vec<u8>> = LINES
        .iter()
        .map(|line| written(line).into_bytes())
        .collect();
    files.extend([
        vec![],
        b"a \xff".to_vec(),
        b"a @".to_vec(),
        long.into_bytes(),
        many.into_bytes(),
    ]);
    files.push("a : 1 -> 2\n".repeat(204).into_bytes());
    for (_, source) in (0..).zip(files).filter(|&(number, _)| piece.takes(number)) {
        let mut lents: Vec<[usize; TABLES]> = (0..256).map(combination).collect();
        let lengths = |random: &mut Random| ROOM.map(|room| room - random.below(40));
        lents.extend((0..200).map(|_| lengths(&mut random)));
        lents.extend((0..50).map(|_| ROOM.map(|room| random.below(room + 1))));
        comparison.compare_lent(&source, &list, &lents);
    }
}

/// One of 256 combinations of lengths.
fn combination(number: usize) -> [usize; TABLES] {
    std::array::from_fn(|table| match number >> (2 * table) & 3 {
        0 => 0,
        1 => WORDS[table] - 1,
        2 => WORDS[table],
        _ => WORDS[table] + 1,
    })
}

/// Any two refused lines in either order, and with what is refused before parsing.
pub fn two_refusals(piece: &Piece, comparison: &mut Comparison) {
    let list = List::new(JETS);
    for (_, one) in (0..).zip(LINES).filter(|&(number, _)| piece.takes(number)) {
        let one = written(one);
        comparison.compare(one.as_bytes(), &list);
        for two in LINES {
            for between in ["\n", " b := iden ", " )", " : 1 -> 1 "] {
                let source = format!("{one}{between}{}", written(two));
                comparison.compare(source.as_bytes(), &list);
            }
        }
        for earlier in EARLIER {
            comparison.compare(&[one.as_bytes(), earlier].concat(), &list);
            comparison.compare(&[earlier, b" ", one.as_bytes()].concat(), &list);
        }
        comparison.compare(format!("{one} {}", "( ".repeat(1_030)).as_bytes(), &list);
        comparison.compare(format!("{one}{}", " ".repeat(32_768)).as_bytes(), &list);
    }
}

/// Files of 1,020 to 1,026 tokens: lines of one form, and then something that fills them up.
pub fn full_tables(piece: &Piece, comparison: &mut Comparison) {
    let list = List::new(JETS);
    for (_, (line, tokens)) in (0..)
        .zip(FULL_LINES)
        .filter(|&(number, _)| piece.takes(number))
    {
        for count in 1_020..=1_026 {
            let lines = line.repeat(count / tokens);
            for filler in FILLERS {
                let filled = filler.repeat(count % tokens);
                comparison.compare(format!("{lines}{filled}").as_bytes(), &list);
            }
            let whole = format!("{lines}a : 1 -> 1{}", " + 2".repeat(count));
            let cut = oracle::lex(&whole).tokens[count];
            comparison.compare(whole[..cut.start].as_bytes(), &list);
        }
    }
}

/// Files of 32,766 to 32,770 bytes, read and refused, with spaces or a comment before or behind their text.
pub fn byte_counts(piece: &Piece, comparison: &mut Comparison) {
    let list = List::new(JETS);
    for (_, line) in (0..).zip(LINES).filter(|&(number, _)| piece.takes(number)) {
        let line = written(line);
        for length in 32_766..=32_770 {
            let missing = length - line.len();
            let spaces = " ".repeat(missing);
            let comment = format!("--{}\n", "c".repeat(missing - 3));
            for filler in [&spaces, &comment] {
                comparison.compare([filler, line.as_str()].concat().as_bytes(), &list);
                comparison.compare([&line, filler.as_str()].concat().as_bytes(), &list);
            }
        }
    }
}

/// The line with its literals and levels written out.
fn written(line: &str) -> String {
    line.replace('%', &format!("0x{}", "5".repeat(31)))
        .replace('&', &format!("0x{}", "5".repeat(129)))
        .replace('@', &"take ".repeat(128))
        .replace('~', &"(".repeat(128))
}

#[cfg(test)]
mod tests {
    use super::*;
    use crate::expected::parsed_with;

    fn refusal(source: &str) -> u32 {
        let jets = oracle::Jets::new(JETS);
        oracle::with_stack(|| parsed_with(source.as_bytes(), &jets).0.no)
    }

    #[test]
    fn lines_meet_each_refusal_of_the_parser() {
        let met = LINES.map(|line| refusal(&written(line)));
        assert_eq!(met, [6, 6, 6, 7, 7, 8, 8, 9, 10, 11, 11, 12, 13, 13, 0, 0]);
    }

    #[test]
    fn lines_have_as_many_tokens_as_they_say_and_are_read() {
        for (line, tokens) in FULL_LINES {
            assert_eq!(oracle::lex(line).tokens.len(), tokens, "{line}");
            assert_eq!(refusal(&line.repeat(3)), 0, "{line}");
        }
    }

    #[test]
    fn combinations_are_all_different() {
        let all: std::collections::HashSet<_> = (0..256).map(combination).collect();
        assert_eq!(all.len(), 256);
        assert!(one_word_short().iter().all(|lent| all.contains(lent)));
    }
}

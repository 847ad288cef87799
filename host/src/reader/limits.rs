//! Tables of many lengths, every refusal, and files about as large as they may be.

use super::lent::{one_word_short, ROOM, TABLES, WORDS};
use super::Comparison;
use crate::list::List;
use crate::random::Random;
use crate::run::Piece;

const JETS: &[u8] = b"verify\nadd_32\n";

/// A file for each answer but refusal 1: none, and the refusals 2 to 13. `~` stands for 32,768 spaces, `^` for 1,025 tokens,
/// `@` for 128 levels, `%` for a literal of 124 bits, `&` for one of 516, and `!` for a byte that is no text.
const ANSWERS: [(&str, u32); 14] = [
    ("a := b\nb := jet_verify\nprim := a\na := iden : 1 -> 2", 0),
    ("", 0),
    ("a := b ~", 2),
    ("a := b !", 3),
    ("a := b = a", 4),
    ("a := b ^", 5),
    ("a := b a", 6),
    ("a := b b := const 0b111", 7),
    ("a := b b := fail %", 8),
    ("a := b b := fail &", 9),
    ("a := b b := jet_nosuch", 10),
    ("a := b b : 2^3 -> 1", 11),
    ("a := b b : 2^4294967296 -> 1", 12),
    ("a := b b := @ a", 13),
];

/// One line each, which may follow itself: `N` is its number, so that names are new, and `M` the number before it.
const FULL_LINES: [&str; 8] = [
    "nN := unit\n",
    "nN := nM\n",
    "nM := nN\n",
    "a := nN\n",
    "nN : 1 -> nM\n",
    "prim := nN\n",
    "nN := assertl nM #{ pair nN nM }\n",
    "nN := comp nM ?nN : 2 -> 2^4\n",
];

/// Every combination of a word too few, just enough and more, as far as the run takes them, with every answer.
pub fn table_lengths(piece: &Piece, comparison: &mut Comparison) {
    let list = List::new(JETS);
    let mut random = Random::new(piece.seed(0x7AB1));
    let combinations = 4_usize.pow(TABLES as u32);
    let step = if piece.scale.quick { 1_021 } else { 61 };
    let files = ANSWERS.iter().enumerate();
    for (number, (file, _)) in files.filter(|&(number, _)| piece.takes(number)) {
        let mut lents: Vec<[usize; TABLES]> = one_word_short().to_vec();
        lents.extend([WORDS, ROOM, [0; TABLES]]);
        lents.extend((number..combinations).step_by(step).map(combination));
        lents.extend((0..100).map(|_| ROOM.map(|room| room - random.below(40))));
        lents.extend((0..50).map(|_| ROOM.map(|room| random.below(room + 1))));
        comparison.compare_lent(&written(file), &list, &lents);
    }
}

/// One of 4^8 combinations of lengths.
fn combination(number: usize) -> [usize; TABLES] {
    std::array::from_fn(|table| match number >> (2 * table) & 3 {
        0 => 0,
        1 => WORDS[table] - 1,
        2 => WORDS[table],
        _ => WORDS[table] + 1,
    })
}

/// Any two answers in one file, so that the one that comes first counts and nothing of the other is left.
pub fn two_answers(piece: &Piece, comparison: &mut Comparison) {
    let list = List::new(JETS);
    let files = ANSWERS.iter().enumerate();
    for (_, (one, _)) in files.filter(|&(number, _)| piece.takes(number)) {
        for (two, _) in ANSWERS {
            let source = [&written(one)[..], b"\n", &written(two)].concat();
            comparison.compare(&source, &list);
        }
    }
}

/// Files of 1,020 to 1,026 tokens, with lines of one form, cut or filled up.
pub fn full_tables(piece: &Piece, comparison: &mut Comparison) {
    let list = List::new(JETS);
    let lines = FULL_LINES.iter().enumerate();
    for (_, line) in lines.filter(|&(number, _)| piece.takes(number)) {
        let whole: String = (1..500).map(|number| numbered(line, number)).collect();
        for count in 1_020..=1_026 {
            for source in [cut(&whole, count), &filled(&whole, count)] {
                comparison.compare(source.as_bytes(), &list);
            }
        }
    }
}

/// The first so many tokens of a text.
fn cut(text: &str, count: usize) -> &str {
    let next = oracle::lex(text).tokens.get(count).copied();
    &text[..next.map_or(text.len(), |token| token.start)]
}

/// The lines of a text that have no more than so many tokens, and a last one that fills them up, if there is room for it.
fn filled(text: &str, count: usize) -> String {
    let cut = cut(text, count);
    let lines = &cut[..cut.rfind('\n').map_or(0, |at| at + 1)];
    match count - oracle::lex(lines).tokens.len() {
        0..=2 => lines.to_owned(),
        left => format!("{lines}last := {}n1\n", "take ".repeat(left - 3)),
    }
}

/// Files of 32,766 to 32,770 bytes.
pub fn byte_counts(piece: &Piece, comparison: &mut Comparison) {
    let list = List::new(JETS);
    let lengths = (32_766..=32_770).enumerate();
    for (_, length) in lengths.filter(|&(number, _)| piece.takes(number)) {
        for source in long_files(length) {
            comparison.compare(source.as_bytes(), &list);
        }
    }
}

/// Files of so many bytes, in which the names stand first, last, or are long themselves.
fn long_files(length: usize) -> [String; 3] {
    let short = "a := pair b nosuch\nb := a\na := b\nprim : 1 -> 1\n";
    let comment = format!("--{}\n", "c".repeat(length - short.len() - 3));
    let long = "l".repeat(length / 3 - 6);
    let spaces = " ".repeat(length % 3);
    [
        format!("{short}{comment}"),
        format!("{comment}{short}"),
        format!("{long} := pair x {long}\nx := {long}\n{spaces}"),
    ]
}

fn numbered(line: &str, number: usize) -> String {
    line.replace('N', &number.to_string())
        .replace('M', &(number - 1).to_string())
}

/// The file with what its marks stand for.
fn written(file: &str) -> Vec<u8> {
    let text = file
        .replace('~', &" ".repeat(32_768))
        .replace(" ^", &" (".repeat(1_025))
        .replace('@', &"take ".repeat(128))
        .replace('%', &format!("0x{}", "5".repeat(31)))
        .replace('&', &format!("0x{}", "5".repeat(129)));
    let byte = |byte: u8| if byte == b'!' { 0xff } else { byte };
    text.into_bytes().into_iter().map(byte).collect()
}

#[cfg(test)]
mod tests {
    use super::*;
    use crate::expected::expected_with;

    fn refusal(source: &[u8]) -> (u32, [u32; 7]) {
        let jets = oracle::Jets::new(JETS);
        oracle::with_stack(|| {
            let e = expected_with(source, &jets);
            (e.no, e.counts)
        })
    }

    #[test]
    fn every_answer_is_met() {
        for (file, no) in ANSWERS {
            assert_eq!(refusal(&written(file)).0, no, "{file}");
        }
    }

    #[test]
    fn lines_of_every_form_are_read() {
        for line in FULL_LINES {
            let source: String = (1..4).map(|number| numbered(line, number)).collect();
            let (no, counts) = refusal(source.as_bytes());
            assert_eq!((no, counts[1]), (0, 3), "{source}");
        }
    }

    #[test]
    fn full_files_have_as_many_tokens_and_bytes_as_they_say() {
        for line in FULL_LINES {
            let whole: String = (1..500).map(|number| numbered(line, number)).collect();
            for count in [1_020, 1_024, 1_026] {
                let tokens = |text: &str| oracle::lex(text).tokens.len();
                assert_eq!(tokens(cut(&whole, count)), count);
                assert!((count - 2..=count).contains(&tokens(&filled(&whole, count))));
            }
            let (no, counts) = refusal(filled(&whole, 1_024).as_bytes());
            assert!(no == 0 && counts[0] >= 1_022, "{line}");
        }
        for length in 32_766..=32_770 {
            assert_eq!(long_files(length).map(|file| file.len()), [length; 3]);
        }
        let most = long_files(32_768).map(|file| refusal(file.as_bytes()).0);
        let over = long_files(32_769).map(|file| refusal(file.as_bytes()).0);
        assert_eq!((most, over), ([0; 3], [2; 3]));
    }

    #[test]
    fn combinations_are_all_different() {
        let all: std::collections::HashSet<_> = (0..65_536).map(combination).collect();
        assert_eq!(all.len(), 65_536);
    }
}

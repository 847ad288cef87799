//! Sources about as long as they may be, in tokens and in bytes, bytes at every place of a file,
//! and tables of every length.

use super::{Comparison, LENT};
use crate::generate::ILL_FORMED;
use crate::scale::Scale;

/// One token each, which the same text may follow. With 1,026 of the last a source is almost as long as it may be.
const TOKENS: [&str; 22] = [
    "(",
    ")",
    "+",
    "*",
    "?",
    "}",
    ":",
    ":=",
    "->",
    "#{",
    "1",
    "2",
    "_ ",
    "a ",
    "a--b\t",
    "unit\r\n",
    "jet_a ",
    "2^1 ",
    "0b1 ",
    "--b\n0xf ",
    "1 --\u{e9}\n",
    "a-name.of_thirty'bytes-or-so9 \n",
];

/// What stands before the tokens.
const BEFORE: [&str; 4] = ["", " \r\n", "--b\n", "@"];

/// What stands behind the tokens.
const BEHIND: [&str; 13] = [
    "",
    " ",
    "\n\t\r ",
    "--b",
    " --b",
    " --b\n",
    "--\u{e9}\n ",
    "@",
    " @",
    "--b\n@",
    "\u{e9}",
    " 2^",
    "\0",
];

/// What stands among the tokens, behind so many of them.
const AMONG: [&str; 3] = ["@", "--b\n", "\u{b}"];
const PLACES: [usize; 6] = [1, 512, 1022, 1023, 1024, 1025];

/// How a long source begins, and what fills it.
const FILLS: [(&str, &str); 20] = [
    ("", "a"),
    ("", "_"),
    ("", "-"),
    ("a", "-"),
    ("", "."),
    ("", " "),
    ("", "\r"),
    ("", "\n"),
    ("", "("),
    ("", "@"),
    ("", "--b\n"),
    ("--", "b"),
    ("--", "\u{e9}"),
    ("-- ", "\u{1f980}"),
    ("jet_", "a"),
    ("2^", "9"),
    ("0b", "1"),
    ("0x", "f"),
    ("#", "f"),
    ("main := unit\n", " "),
];

/// What a long source ends with.
const ENDS: [&[u8]; 7] = [b"", b"a", b"\n", b"@", b"\n@", b"\xc3", b"\xff"];

const LENGTHS: [usize; 9] = [
    32_766,
    32_767,
    32_768,
    32_769,
    32_770,
    65_535,
    65_536,
    65_537,
    1 << 20,
];

/// A small file with tokens of many kinds, comments, and characters of every length.
const FILE: &str = "-- \u{fc}\u{20ac}\u{1f980}\nmain := assertr #{ take a-b } (const 0b01)\r\n\
    \t: 1 -> 2^8 * _ --\u{e9}\na-b := comp jet_add_32 ?h'.h -- end";

/// 1,023 to 1,026 tokens of every form, with something before, behind or among them.
pub fn token_counts(_: &Scale, comparison: &mut Comparison) {
    for token in TOKENS {
        for count in 1023..=1026 {
            let tokens = token.repeat(count);
            for before in BEFORE {
                for behind in BEHIND {
                    comparison.compare([before, &tokens, behind].concat().as_bytes());
                }
            }
            for place in PLACES.into_iter().filter(|&place| place < count) {
                let (front, back) = tokens.split_at(place * token.len());
                for among in AMONG {
                    comparison.compare([front, among, back].concat().as_bytes());
                }
            }
        }
    }
}

/// One long thing, or many short ones, of about 32,768 bytes and of far more.
pub fn byte_counts(_: &Scale, comparison: &mut Comparison) {
    for (front, fill) in FILLS {
        for length in LENGTHS {
            for end in ENDS {
                let filled = length - front.len() - end.len();
                let mut source = front.as_bytes().to_vec();
                source.extend(fill.bytes().cycle().take(filled));
                source.extend_from_slice(end);
                comparison.compare(&source);
            }
        }
    }
}

pub fn bytes_at_every_place(_: &Scale, comparison: &mut Comparison) {
    for at in 0..=FILE.len() {
        let (front, back) = FILE.as_bytes().split_at(at);
        comparison.compare(front);
        for byte in 0..=u8::MAX {
            comparison.compare(&[front, &[byte], back].concat());
        }
    }
}

/// The same alone, behind a bad byte, and behind more tokens than there may be.
pub fn ill_formed_at_every_place(_: &Scale, comparison: &mut Comparison) {
    for before in ["", "@", &"(".repeat(1025)] {
        for at in 0..=FILE.len() {
            let (front, back) = FILE.as_bytes().split_at(at);
            for sequence in ILL_FORMED {
                comparison.compare(&[before.as_bytes(), front, sequence, back].concat());
            }
        }
    }
}

/// Each answer there is, with tables of every length from 0 to some words more than they have to have.
pub fn table_lengths(_: &Scale, comparison: &mut Comparison) {
    let full = "(".repeat(1024);
    let (many, long) = (format!("{full})"), " ".repeat(32_769));
    let texts = ["", "a", FILE, "a @", &full, &many, &long];
    let sources = texts.map(str::as_bytes).into_iter().chain([&b"a \xff"[..]]);
    for source in sources {
        for lent in 0..=LENT {
            comparison.compare_lent(source, lent);
        }
    }
}

#[cfg(test)]
mod tests {
    use super::{FILE, TOKENS};

    #[test]
    fn each_text_is_one_token_also_behind_itself() {
        for token in TOKENS {
            let lexed = oracle::lex(&token.repeat(1026));
            assert_eq!((lexed.tokens.len(), lexed.bad), (1026, None), "{token:?}");
        }
        assert!(TOKENS.iter().all(|token| token.len() * 1026 <= 32_768 - 16));
    }

    #[test]
    fn the_small_file_lexes() {
        let lexed = oracle::lex(FILE);
        assert_eq!((lexed.tokens.len(), lexed.bad), (23, None));
    }
}

//! What a call must answer and leave in its table: the tokens are the oracle's, the limits
//! and the order of the refusals are the rules page's.

use crate::library::Lexed;
use crate::tables::RULES;

/// The words of the token table's 1,024 records.
pub const WORDS: usize = RULES.records as usize * RULES.token_words as usize;

/// A call's row, and the words it settles at the front of its table: `records`, then zeros.
/// The words behind stay as they were.
#[derive(Debug, PartialEq, Eq)]
pub struct Expected {
    pub row: Lexed,
    pub records: Vec<u32>,
    pub settled: usize,
}

/// What lexing a source into a table of `lent` words must give.
pub fn expected(source: &[u8], lent: usize) -> Expected {
    let (row, records, settled) = if lent < WORDS {
        (refused(1, 0), Vec::new(), 0)
    } else {
        match records(source) {
            Ok(records) => (lexed(&records), records, WORDS),
            Err(row) => (row, Vec::new(), WORDS),
        }
    };
    Expected {
        row,
        records,
        settled,
    }
}

/// The records of the source's tokens, or the first of the refusals 2 to 5.
fn records(source: &[u8]) -> Result<Vec<u32>, Lexed> {
    if source.len() > RULES.source_bytes as usize {
        return Err(refused(2, 0));
    }
    let text = std::str::from_utf8(source).map_err(|error| refused(3, error.valid_up_to()))?;
    let lexed = oracle::lex(text);
    // the tokens are those before the bad byte, so one too many is met before that byte
    if let Some(token) = lexed.tokens.get(RULES.records as usize) {
        return Err(refused(5, token.start));
    }
    if let Some(place) = lexed.bad {
        return Err(refused(4, place));
    }
    let words = |token: &oracle::Token| [token.kind, token.start as u32, token.len as u32];
    Ok(lexed.tokens.iter().flat_map(words).collect())
}

fn lexed(records: &[u32]) -> Lexed {
    Lexed {
        tokens: records.len() as u32 / RULES.token_words,
        ..refused(0, 0)
    }
}

fn refused(no: u32, place: usize) -> Lexed {
    Lexed {
        no,
        value: 0,
        place,
        tokens: 0,
    }
}

#[cfg(test)]
mod tests {
    use super::{expected, Expected, WORDS};
    use crate::library::Lexed;

    /// The refusal and its place, for a table that is long enough.
    fn refusal(source: impl AsRef<[u8]>) -> (u32, usize) {
        let answer = expected(source.as_ref(), WORDS);
        assert_eq!((answer.row.value, answer.row.tokens), (0, 0));
        assert!(answer.records.is_empty());
        assert_eq!(answer.settled, WORDS);
        (answer.row.no, answer.row.place)
    }

    fn tokens(source: impl AsRef<[u8]>) -> u32 {
        let answer = expected(source.as_ref(), WORDS);
        assert_eq!((answer.row.no, answer.row.place), (0, 0));
        answer.row.tokens
    }

    #[test]
    fn tokens_become_records_of_kind_start_and_length() {
        let row = Lexed {
            no: 0,
            value: 0,
            place: 0,
            tokens: 2,
        };
        let whole = Expected {
            row,
            records: vec![23, 1, 4, 1, 6, 2],
            settled: WORDS,
        };
        assert_eq!(expected(b" unit :=", WORDS), whole);
        assert_eq!(tokens(""), 0);
        assert_eq!(tokens("--b"), 0);
    }

    #[test]
    fn a_short_table_comes_before_all_other_refusals_and_stays() {
        let (long, ill) = ([b'a'; 32_769], [0xff]);
        for source in [&long[..], &ill, b"@", b"a"] {
            for lent in [0, 1, WORDS - 1] {
                let answer = expected(source, lent);
                assert_eq!((answer.row.no, answer.row.place, answer.settled), (1, 0, 0));
            }
        }
        assert_eq!(expected(b"a", WORDS + 1).row.tokens, 1);
    }

    #[test]
    fn a_long_source_comes_before_what_is_wrong_in_it() {
        assert_eq!(refusal([b'a'; 32_769]), (2, 0));
        assert_eq!(refusal([0xff; 32_769]), (2, 0));
        assert_eq!(refusal([b'@'; 32_769]), (2, 0));
        assert_eq!(tokens([b'a'; 32_768]), 1);
    }

    #[test]
    fn ill_formed_bytes_come_before_bad_bytes_and_too_many_tokens() {
        assert_eq!(refusal(b"@ \xc3\xa9 \xe2\x82 \xff"), (3, 5));
        assert_eq!(refusal([&[b'('; 1_025][..], b"\x80"].concat()), (3, 1_025));
    }

    #[test]
    fn a_bad_byte_and_the_1025th_token_go_from_the_left() {
        let full = "(".repeat(1_024);
        assert_eq!(tokens(format!("{full} --c\n")), 1_024);
        assert_eq!(refusal(format!("{full} --c\n)")), (5, 1_029));
        assert_eq!(refusal(format!("{full} --c\n@)")), (4, 1_029));
        assert_eq!(refusal(format!("{full})@")), (5, 1_024));
        assert_eq!(refusal(format!("@{full})")), (4, 0));
        assert_eq!(refusal("a->b"), (4, 2));
        assert_eq!(refusal("2^0"), (4, 1));
    }
}

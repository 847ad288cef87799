//! What a call of the parser must answer and leave in its tables: all but refusal 1 follows from the oracle. And what a
//! byte of a literal must be at any span, from the rules page.

use super::lent::{TABLES, WORDS};
use crate::expected::Expected;
use crate::library::Parsed;

/// What a call must answer and leave.
pub struct Rule<'a> {
    pub row: Parsed,
    /// The records at the front of each table; zeros follow up to the 1,024th. None: no word is changed.
    pub tables: Option<&'a [Vec<u32>]>,
}

/// What a call must do with tables of so many words, if `answer` is what tables long enough would give.
pub fn rule(answer: &Expected, lent: [usize; TABLES]) -> Rule<'_> {
    if lent.iter().zip(WORDS).any(|(&lent, words)| lent < words) {
        let row = Parsed {
            no: 1,
            ..Parsed::default()
        };
        return Rule { row, tables: None };
    }
    let [tokens, lines, expressions, types, ..] = answer.counts;
    let row = Parsed {
        no: answer.no,
        value: answer.value,
        place: answer.place as usize,
        tokens,
        lines,
        expressions,
        types,
    };
    Rule {
        row,
        tables: Some(&answer.tables[..TABLES]),
    }
}

/// A byte of the literal at a span: its bits eight by eight, the first one highest, and no bit behind the last.
pub fn literal_byte(source: &[u8], start: u32, len: u32, index: u32) -> u32 {
    let bits = literal_bits(source, start, len).unwrap_or_default();
    let first = u64::from(index) * 8;
    let bit = |at: u64| usize::try_from(first + at).ok().and_then(|at| bits.get(at));
    (0..8).fold(0, |byte, at| byte * 2 + u32::from(bit(at) == Some(&true)))
}

/// The bits of a literal; None if the span is not inside the source or its text is no literal.
fn literal_bits(source: &[u8], start: u32, len: u32) -> Option<Vec<bool>> {
    let end = usize::try_from(u64::from(start) + u64::from(len)).ok()?;
    let text = std::str::from_utf8(source.get(start as usize..end)?).ok()?;
    let (digits, count, set) = match text.get(..2)? {
        "0b" => (&text[2..], 1, "01"),
        "0x" => (&text[2..], 4, "0123456789abcdef"),
        _ => return None,
    };
    let mut bits = Vec::with_capacity(digits.len() * count);
    for digit in digits.chars() {
        let value = set.find(digit)?;
        bits.extend((0..count).rev().map(|bit| value >> bit & 1 == 1));
    }
    Some(bits)
}

#[cfg(test)]
mod tests {
    use super::*;

    fn bytes(text: &str) -> Vec<u32> {
        (0..4)
            .map(|index| literal_byte(text.as_bytes(), 0, text.len() as u32, index))
            .collect()
    }

    #[test]
    fn bits_are_packed_first_bit_highest_and_zeros_after() {
        assert_eq!(bytes("0x9f4"), [0x9f, 0x40, 0, 0]);
        assert_eq!(bytes("0b1"), [0x80, 0, 0, 0]);
        assert_eq!(bytes("0b0101100111"), [0x59, 0xc0, 0, 0]);
        assert_eq!(bytes("0xffffffff"), [0xff; 4]);
    }

    #[test]
    fn other_texts_have_no_bytes() {
        for text in [
            "", "0", "0b", "0x", "0b12", "0xfF", "0Xff", "0B1", "_", "1", "0x f", "0xf ",
        ] {
            assert_eq!(bytes(text), [0; 4], "{text}");
        }
        assert_eq!(bytes(&format!("#{}", "f".repeat(64))), [0; 4]);
        assert_eq!(literal_byte(b"0xff\xff", 0, 5, 0), 0);
    }

    #[test]
    fn a_span_is_the_whole_text_and_inside_the_source() {
        let source = b"a 0xff b";
        assert_eq!(literal_byte(source, 2, 4, 0), 0xff);
        assert_eq!(literal_byte(source, 2, 3, 0), 0xf0);
        for (start, len) in [
            (1, 5),
            (2, 5),
            (3, 3),
            (2, 7),
            (9, 0),
            (u32::MAX, 7),
            (2, u32::MAX),
        ] {
            assert_eq!(literal_byte(source, start, len, 0), 0, "{start} {len}");
        }
        assert_eq!(literal_byte(source, 2, 4, 1 << 29), 0);
        assert_eq!(literal_byte(source, 2, 4, u32::MAX), 0);
    }

    #[test]
    fn one_short_table_is_refused_before_all_else() {
        let answer = Expected {
            no: 6,
            place: 9,
            ..Expected::default()
        };
        assert_eq!(rule(&answer, WORDS).row.no, 6);
        for table in 0..TABLES {
            let mut lent = WORDS;
            lent[table] -= 1;
            let rule = rule(&answer, lent);
            assert_eq!((rule.row.no, rule.row.place, rule.tables), (1, 0, None));
        }
    }
}

//! The library for the comparing runs: safe calls on slices and numbers.

mod parsed;

use crate::ffi;
pub use crate::ffi::{Lexed, Limits, Parsed, Refusal};
pub use crate::zaghdurem::calls::*;
pub(crate) use parsed::parse_row;
pub use parsed::{parse_line_vector, Counts, Tables};
use std::fmt;

impl fmt::Display for Refusal {
    fn fmt(&self, out: &mut fmt::Formatter<'_>) -> fmt::Result {
        write!(out, "refused {} at byte {}", self.no, self.place)?;
        if self.value != 0 {
            write!(out, ", with {}", self.value)?;
        }
        Ok(())
    }
}

impl std::error::Error for Refusal {}

/// Whether the bytes are UTF-8; if not, refusal 3 with its place.
pub fn check_text(source: &[u8]) -> Result<(), Refusal> {
    let row = check_text_row(source);
    if row.no == 0 {
        Ok(())
    } else {
        Err(row)
    }
}

/// The row that `check_text` rests on, as the library gives it.
pub(crate) fn check_text_row(source: &[u8]) -> Refusal {
    // SAFETY: pointer and length are those of one slice, which is only read.
    unsafe { ffi::zaghdurem_check_text(source.as_ptr(), source.len()) }
}

/// Writes the source's tokens into a lent table as records of kind, start and length, and gives their number; the
/// first 1,024 records not used become zeros, all of them on refusals 2 to 5. Refusal 1 leaves the table as it is.
pub fn lex_all(source: &[u8], tokens: &mut [u32]) -> Result<u32, Refusal> {
    let row = lex_all_row(source, tokens);
    if row.no == 0 {
        Ok(row.tokens)
    } else {
        Err(Refusal {
            no: row.no,
            value: row.value,
            place: row.place,
        })
    }
}

/// The row that `lex_all` rests on, as the library gives it.
pub(crate) fn lex_all_row(source: &[u8], tokens: &mut [u32]) -> Lexed {
    let (table, words) = (tokens.as_mut_ptr(), tokens.len());
    // SAFETY: each pointer and length are those of one slice; the source is only read, and
    // the table is this call's alone.
    unsafe { ffi::zaghdurem_lex_all(source.as_ptr(), source.len(), table, words) }
}

/// The limits of a source and the words per record of each table.
pub fn limits() -> Limits {
    // SAFETY: the call takes nothing and answers with plain numbers.
    unsafe { ffi::zaghdurem_limits() }
}

/// Word `word` (from 0) of record `number` (from 1) of a table whose records
/// have `width` words; 0 where there is none.
pub fn word(table: &[u32], width: u32, number: u32, word: u32) -> u32 {
    // SAFETY: pointer and length are those of one slice, which is only read.
    unsafe { ffi::zaghdurem_word(table.as_ptr(), table.len(), width, number, word) }
}

#[cfg(test)]
mod tests {
    use super::*;

    #[test]
    fn text_that_is_no_utf8_is_refused_at_its_first_bad_byte() {
        assert_eq!(check_text(b""), Ok(()));
        assert_eq!(check_text("gr\u{fc}n".as_bytes()), Ok(()));
        let refusal = check_text(b"ab\xe2\x82").unwrap_err();
        assert_eq!((refusal.no, refusal.value, refusal.place), (3, 0, 2));
        assert_eq!(refusal.to_string(), "refused 3 at byte 2");
    }

    #[test]
    fn a_refusal_shows_its_value_if_it_has_one() {
        let refusal = Refusal {
            no: 7,
            value: 3,
            place: 11,
        };
        assert_eq!(refusal.to_string(), "refused 7 at byte 11, with 3");
    }

    #[test]
    fn places_are_lines_and_columns() {
        assert_eq!(offset_to_position(b"", 0), Position { line: 1, column: 1 });
        assert_eq!(
            offset_to_position(b"ab\ncd", 4),
            Position { line: 2, column: 2 }
        );
        assert_eq!(
            offset_to_position(b"ab\ncd", usize::MAX),
            Position { line: 2, column: 3 }
        );
    }

    #[test]
    fn tokens_are_written_into_the_lent_table() {
        let mut table = [7; 3_073];
        assert_eq!(lex_all(b"a :=", &mut table), Ok(2));
        assert_eq!(table[..7], [34, 0, 1, 1, 2, 2, 0]);
        assert_eq!(table[3_071..], [0, 7]);
        let refusal = lex_all(b"a =", &mut table).unwrap_err();
        assert_eq!((refusal.no, refusal.value, refusal.place), (4, 0, 2));
        assert_eq!(table[..3], [0; 3]);
    }

    #[test]
    fn a_table_that_is_too_short_is_refused_and_stays() {
        let mut table = [7; 3_071];
        let refusal = lex_all(b"a =", &mut table).unwrap_err();
        assert_eq!((refusal.no, refusal.value, refusal.place), (1, 0, 0));
        assert_eq!(table, [7; 3_071]);
        assert_eq!(lex_all(b"", &mut []).unwrap_err().no, 1);
    }

    #[test]
    fn bytes_of_literals_are_told() {
        let bytes: Vec<u32> = (0..4).map(|at| literal_byte(b"0x9f4", 0, 5, at)).collect();
        assert_eq!(bytes, [0x9f, 0x40, 0, 0]);
        assert_eq!(literal_byte(b"a 0b1", 2, 3, 0), 0x80);
        assert_eq!(literal_byte(b"a 0b1", 1, 4, 0), 0);
        assert_eq!(literal_byte(b"0b1", u32::MAX, 4, 0), 0);
    }

    #[test]
    fn words_and_limits_are_told() {
        assert_eq!(word(&[1, 2, 3, 4], 2, 2, 1), 4);
        assert_eq!(word(&[1, 2, 3, 4], 2, 3, 0), 0);
        assert_eq!(limits().records, 1024);
    }
}

//! Reading a source up to its lines.

use super::Refusal;
use crate::ffi::{self, Parsed};

/// The tables that a call of the parser is lent, each as long as it likes.
#[derive(Debug)]
pub struct Tables<'a> {
    pub tokens: &'a mut [u32],
    pub lines: &'a mut [u32],
    pub expressions: &'a mut [u32],
    pub types: &'a mut [u32],
}

/// How many records the parser wrote into each table.
#[derive(Clone, Copy, Debug, PartialEq, Eq)]
pub struct Counts {
    pub tokens: u32,
    pub lines: u32,
    pub expressions: u32,
    pub types: u32,
}

/// Writes the source's tokens, lines, expressions and types into lent tables and gives their numbers; the first 1,024
/// records not used become zeros, all of them on refusals 2 to 13. Refusal 1 leaves the tables as they are.
pub fn parse_line_vector(
    source: &[u8],
    jets: &[u8],
    tables: Tables<'_>,
) -> Result<Counts, Refusal> {
    let row = parse_row(source, jets, tables);
    if row.no == 0 {
        Ok(Counts {
            tokens: row.tokens,
            lines: row.lines,
            expressions: row.expressions,
            types: row.types,
        })
    } else {
        Err(Refusal {
            no: row.no,
            value: row.value,
            place: row.place,
        })
    }
}

/// The row that `parse_line_vector` rests on, as the library gives it.
pub(crate) fn parse_row(source: &[u8], jets: &[u8], tables: Tables<'_>) -> Parsed {
    // SAFETY: each pointer and length are those of one slice; source and jets are only read, and
    // the four tables are this call's alone and lie apart.
    unsafe {
        ffi::zaghdurem_parse_line_vector(
            source.as_ptr(),
            source.len(),
            jets.as_ptr(),
            jets.len(),
            tables.tokens.as_mut_ptr(),
            tables.tokens.len(),
            tables.lines.as_mut_ptr(),
            tables.lines.len(),
            tables.expressions.as_mut_ptr(),
            tables.expressions.len(),
            tables.types.as_mut_ptr(),
            tables.types.len(),
        )
    }
}

#[cfg(test)]
mod tests {
    use super::*;

    /// What parsing gives, and the first record of each table; the tables have just enough words.
    fn parsed(source: &[u8]) -> (Result<Counts, Refusal>, [Vec<u32>; 4]) {
        let mut words = [3, 5, 6, 4].map(|width| vec![7; width * 1_024]);
        let [tokens, lines, expressions, types] = &mut words;
        let tables = Tables {
            tokens,
            lines,
            expressions,
            types,
        };
        let answer = parse_line_vector(source, b"verify\n", tables);
        (
            answer,
            words.map(|table| table[..table.len() / 1_024].to_vec()),
        )
    }

    #[test]
    fn lines_are_written_into_the_lent_tables() {
        let (answer, [token, line, expression, of_type]) = parsed(b"a := jet_verify : 2^4 -> _");
        let counts = Counts {
            tokens: 7,
            lines: 1,
            expressions: 1,
            types: 1,
        };
        assert_eq!(answer, Ok(counts));
        assert_eq!(token, [34, 0, 1]);
        assert_eq!(line, [0, 1, 1, 1, 0]);
        assert_eq!(expression, [19, 5, 0, 0, 5, 10]);
        assert_eq!(of_type, [6, 0, 0, 2]);
    }

    #[test]
    fn a_refused_source_leaves_zeros() {
        let (answer, records) = parsed(b"a := jet_verif");
        let refusal = answer.unwrap_err();
        assert_eq!((refusal.no, refusal.value, refusal.place), (10, 0, 5));
        assert!(records.concat().iter().all(|&word| word == 0));
    }
}

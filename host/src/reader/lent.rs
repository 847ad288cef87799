//! The eight tables that a call of the reader is lent, and what a call must answer and leave in them.

use crate::buffer::{room, words, Buffer};
use crate::expected::Expected;
use crate::library::Read;
use crate::tables::RULES;

/// Tokens, lines, expressions, types, names, nodes, errors, work.
pub const TABLES: usize = 8;

const NAMES: [&str; TABLES] = [
    "tokens",
    "lines",
    "expressions",
    "types",
    "names",
    "nodes",
    "errors",
    "work",
];

/// The words of the 1,024 records of each table.
pub const WORDS: [usize; TABLES] = words([
    RULES.token_words,
    RULES.line_words,
    RULES.expression_words,
    RULES.type_words,
    RULES.name_words,
    RULES.node_words,
    RULES.error_words,
    RULES.work_words,
]);

/// The most words that a call is lent of each table.
pub const ROOM: [usize; TABLES] = room(WORDS);

impl Default for Buffer<TABLES> {
    fn default() -> Self {
        Buffer::new(NAMES, WORDS)
    }
}

/// Tables each of which is just long enough but one, which has a word too few.
pub fn one_word_short() -> [[usize; TABLES]; TABLES] {
    let mut lents = [WORDS; TABLES];
    for (table, lent) in lents.iter_mut().enumerate() {
        lent[table] -= 1;
    }
    lents
}

/// What a call must answer and leave.
pub struct Rule<'a> {
    pub row: Read,
    /// The records at the front of each table but the work table, which has none; zeros follow up to the 1,024th. None: no
    /// word is changed.
    pub tables: Option<&'a [Vec<u32>]>,
}

/// What a call must do with tables of so many words, if `answer` is what tables long enough would give.
pub fn rule(answer: &Expected, lent: [usize; TABLES]) -> Rule<'_> {
    if lent.iter().zip(WORDS).any(|(&lent, words)| lent < words) {
        let row = Read {
            no: 1,
            ..Read::default()
        };
        return Rule { row, tables: None };
    }
    let [tokens, lines, expressions, types, names, nodes, errors] = answer.counts;
    let row = Read {
        no: answer.no,
        value: answer.value,
        place: answer.place as usize,
        tokens,
        lines,
        expressions,
        types,
        names,
        nodes,
        errors,
    };
    Rule {
        row,
        tables: Some(&answer.tables),
    }
}

#[cfg(test)]
mod tests {
    use super::*;
    use crate::expected::WIDTHS;

    #[test]
    fn one_short_table_is_refused_before_all_else() {
        let answer = Expected {
            no: 6,
            place: 9,
            ..Expected::default()
        };
        assert_eq!(rule(&answer, WORDS).row.no, 6);
        for lent in one_word_short() {
            let rule = rule(&answer, lent);
            assert_eq!((rule.row.no, rule.row.place, rule.tables), (1, 0, None));
        }
    }

    #[test]
    fn the_work_table_comes_last_and_has_no_records() {
        let answer = Expected::default();
        assert_eq!(NAMES[TABLES - 1], "work");
        assert_eq!(rule(&answer, ROOM).tables.unwrap().len(), TABLES - 1);
    }

    #[test]
    fn tables_are_as_wide_as_what_is_expected() {
        for (words, width) in WORDS.iter().zip(WIDTHS.into_iter().chain([4])) {
            assert_eq!(*words, width * 1_024);
        }
    }
}

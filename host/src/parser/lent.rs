//! The four tables that a call of the parser is lent.

use crate::buffer::{room, words, Buffer};
use crate::tables::RULES;

/// Tokens, lines, expressions, types.
pub const TABLES: usize = 4;

const NAMES: [&str; TABLES] = ["tokens", "lines", "expressions", "types"];

/// The words of the 1,024 records of each table.
pub const WORDS: [usize; TABLES] = words([
    RULES.token_words,
    RULES.line_words,
    RULES.expression_words,
    RULES.type_words,
]);

/// The most words that a call is lent of each table.
pub const ROOM: [usize; TABLES] = room(WORDS);

impl Default for Buffer<TABLES> {
    fn default() -> Self {
        Buffer::new(NAMES, WORDS)
    }
}

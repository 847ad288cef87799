//! The lexer, against the oracle's: each source's answer, and every word of the table it is lent.

mod inputs;
mod limits;
mod reference;
mod texts;

pub use inputs::PARTS;

use crate::generate::Shape;
use crate::library::{self, Lexed};
use crate::shrink::shrink;
use crate::tally::{answer, Disagreement, Tally};
use reference::{expected, Expected, WORDS};

/// Words behind the records that a call is lent and must leave alone, and as many behind those that it is not lent.
const GUARD: usize = 32;

/// How many words a call is lent if its table is not what is tried.
const LENT: usize = WORDS + GUARD;

const BUFFER: usize = LENT + GUARD;

/// The words of the buffer before each call: none is 0, and no two are the same.
static PATTERN: [u32; BUFFER] = pattern();

static ZEROS: [u32; WORDS] = [0; WORDS];

/// The comparison of lexers: what is counted, and the buffer that serves every call.
pub struct Comparison {
    /// One comparison for each source and table.
    pub tally: Tally,
    /// How many sources lex, and how many meet each of the refusals 1 to 5.
    pub answers: [u64; 6],
    /// How many files of each family were made, in the order of `Shape::ALL`.
    pub files: [u64; Shape::ALL.len()],
    buffer: Vec<u32>,
}

impl Default for Comparison {
    fn default() -> Self {
        Comparison {
            tally: Tally::default(),
            answers: [0; 6],
            files: [0; Shape::ALL.len()],
            buffer: PATTERN.to_vec(),
        }
    }
}

/// What is told about a call: its row, and the first word that is not as it must be, with its index.
#[derive(Debug, PartialEq, Eq)]
struct Told {
    row: Lexed,
    word: Option<(usize, u32)>,
}

impl Comparison {
    /// Compares the answer about a source, with a table longer than it has to be.
    fn compare(&mut self, source: &[u8]) {
        self.compare_lent(source, LENT);
    }

    /// Compares the answer about a source with a table of `lent` words, and the whole buffer after it.
    fn compare_lent(&mut self, source: &[u8], lent: usize) {
        self.buffer.copy_from_slice(&PATTERN);
        let row = library::lex_all_row(source, &mut self.buffer[..lent]);
        let rule = expected(source, lent);
        self.answers[rule.row.no as usize] += 1;
        let wrong = first_difference(&self.buffer, &rule);
        let told = Told {
            row,
            word: wrong.map(|index| (index, self.buffer[index])),
        };
        let wanted = Told {
            row: rule.row,
            word: wrong.map(|index| (index, rule_word(&rule, index))),
        };
        self.tally.compare(
            source,
            || format!("tokens, with a table of {lent} words"),
            answer("library", told),
            answer("oracle", wanted),
        );
    }

    /// Makes the smallest source on which the library disagrees smaller still.
    pub fn shrink_disagreement(&mut self) {
        let Some(found) = &self.tally.smallest else {
            return;
        };
        let shorter = shrink(&found.input, |input| about(input).is_some());
        self.tally.smallest = about(&shorter).or_else(|| self.tally.smallest.take());
    }
}

/// What the library disagrees on about one source, with tables of several lengths.
fn about(source: &[u8]) -> Option<Disagreement> {
    let mut comparison = Comparison::default();
    for lent in [LENT, WORDS, WORDS - 1, 0] {
        comparison.compare_lent(source, lent);
    }
    comparison.tally.smallest
}

/// The index of the first word of the buffer that is not as it must be.
fn first_difference(buffer: &[u32], rule: &Expected) -> Option<usize> {
    let (records, rest) = buffer.split_at(rule.records.len());
    let (zeros, kept) = rest.split_at(rule.settled - rule.records.len());
    let agrees = records == rule.records
        && zeros == &ZEROS[..zeros.len()]
        && kept == &PATTERN[rule.settled..];
    if agrees {
        return None;
    }
    (0..buffer.len()).find(|&index| buffer[index] != rule_word(rule, index))
}

/// What a word of the buffer must be after the call.
fn rule_word(rule: &Expected, index: usize) -> u32 {
    if index < rule.settled {
        rule.records.get(index).copied().unwrap_or(0)
    } else {
        PATTERN[index]
    }
}

const fn pattern() -> [u32; BUFFER] {
    let mut words = [0; BUFFER];
    let mut index = 0;
    while index < BUFFER {
        words[index] = (index as u32 + 1).wrapping_mul(0x9E37_79B1);
        index += 1;
    }
    words
}

#[cfg(test)]
mod tests {
    use super::{first_difference, rule_word, BUFFER, LENT, PATTERN, WORDS};
    use crate::lexer::reference::expected;

    /// The buffer as it must be after lexing a source into a table of `lent` words.
    fn sound(source: &[u8], lent: usize) -> Vec<u32> {
        let rule = expected(source, lent);
        (0..BUFFER).map(|index| rule_word(&rule, index)).collect()
    }

    #[test]
    fn every_changed_word_is_found() {
        for (source, lent) in [(&b"a :="[..], LENT), (b"@", WORDS), (b"a", WORDS - 1)] {
            let rule = expected(source, lent);
            let mut buffer = sound(source, lent);
            assert_eq!(first_difference(&buffer, &rule), None);
            for index in 0..BUFFER {
                buffer[index] ^= 1;
                assert_eq!(first_difference(&buffer, &rule), Some(index));
                buffer[index] ^= 1;
            }
        }
    }

    #[test]
    fn records_zeros_and_what_is_kept_follow_each_other() {
        let buffer = sound(b"a", LENT);
        assert_eq!(buffer[..4], [34, 0, 1, 0]);
        assert_eq!(buffer[WORDS - 1], 0);
        assert_eq!(buffer[WORDS..], PATTERN[WORDS..]);
        assert_eq!(sound(b"a", WORDS - 1), PATTERN);
    }

    #[test]
    fn no_word_of_the_pattern_is_zero_or_there_twice() {
        let mut words = PATTERN.to_vec();
        words.sort();
        words.dedup();
        assert_eq!(words.len(), BUFFER);
        assert_ne!(words[0], 0);
    }
}

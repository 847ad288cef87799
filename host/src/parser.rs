//! The parser, against the oracle's `parse_line_vector` and the limits of the rules page: each file's answer, every word of
//! the four tables it is lent, and the bytes of its literals.

mod depths;
mod exact;
pub(crate) mod grammatical;
mod inputs;
mod jets;
mod lent;
mod limits;
mod literals;
mod numbers;
pub(crate) mod reference;
mod tokens;

use crate::buffer::Buffer;
use crate::expected::{parsed_with, Expected};
use crate::generate::Shape;
use crate::library::{self, Parsed, Tables};
use crate::list::List;
use crate::run::{self, add_all, Counted, Done};
use crate::scale::Scale;
use crate::shrink::shrink;
use crate::tally::{answer, Disagreement, Tally};
use inputs::PARTS;
use lent::{ROOM, TABLES, WORDS};
use reference::rule;

/// How many answers there are: none refused, and the refusals 1 to 13.
pub const ANSWERS: usize = 14;

/// The comparison of parsers: what is counted, and the buffer that serves every call. It has to be used inside
/// `oracle::with_stack`.
#[derive(Default)]
pub struct Comparison {
    /// One comparison for each file and its tables.
    pub tally: Tally,
    /// One comparison for each byte of a literal.
    pub bytes: Tally,
    /// How many files were parsed, some of them with several sets of tables.
    pub parsed: u64,
    /// How many calls had each answer.
    pub answers: [u64; ANSWERS],
    /// How many files of each family were made, in the order of `Shape::ALL`.
    pub files: [u64; Shape::ALL.len()],
    /// The shortest source that disagrees, with its jet list.
    found: Option<(Vec<u8>, Vec<u8>)>,
    buffer: Buffer<TABLES>,
}

/// What is told about a call: its row, and the first word that is not as it must be, with where it stands.
#[derive(Debug, PartialEq, Eq)]
struct Told {
    row: Parsed,
    word: Option<(String, u32)>,
}

impl Comparison {
    /// Compares the answer about a file, with tables longer than they have to be, and the bytes of its literals.
    fn compare(&mut self, source: &[u8], list: &List) {
        self.compare_lent(source, list, &[ROOM]);
    }

    /// The same with several sets of tables of so many words.
    fn compare_lent(&mut self, source: &[u8], list: &List, lents: &[[usize; TABLES]]) {
        let (wanted, lines) = parsed_with(source, &list.known);
        let before = self.disagreements();
        self.parsed += 1;
        for &lent in lents {
            self.call(source, list, &wanted, lent);
        }
        literals::of_lines(source, &lines, &mut self.bytes);
        if self.disagreements() > before {
            self.keep(source, list);
        }
    }

    /// Compares one call: its row, and the whole buffer after it.
    fn call(&mut self, source: &[u8], list: &List, wanted: &Expected, lent: [usize; TABLES]) {
        let [tokens, lines, expressions, types] = self.buffer.lend(lent);
        let tables = Tables {
            tokens,
            lines,
            expressions,
            types,
        };
        let row = library::parse_row(source, &list.bytes, tables);
        let rule = rule(wanted, lent);
        self.answers[rule.row.no as usize] += 1;
        let (is, must) = match self.buffer.first_difference(rule.tables) {
            None => (None, None),
            Some((place, is, must)) => (Some((place.clone(), is)), Some((place, must))),
        };
        let told = Told { row, word: is };
        let wanted = Told {
            row: rule.row,
            word: must,
        };
        self.tally.compare(
            source,
            || {
                format!(
                    "tables of {lent:?} words, jet list \"{}\"",
                    list.bytes.escape_ascii()
                )
            },
            answer("library", told),
            answer("oracle", wanted),
        );
    }

    fn disagreements(&self) -> u64 {
        self.tally.disagreements + self.bytes.disagreements
    }

    /// Keeps a file that disagrees, if its source is the shortest so far.
    fn keep(&mut self, source: &[u8], list: &List) {
        let shorter = |(known, _): &(Vec<u8>, Vec<u8>)| source.len() < known.len();
        if self.found.as_ref().is_none_or(shorter) {
            self.found = Some((source.to_vec(), list.bytes.clone()));
        }
    }
}

impl Counted for Comparison {
    /// Makes the shortest file on which the library disagrees smaller still, first its source and then its jet list.
    fn shrink_disagreement(&mut self) {
        let Some((source, jets)) = self.found.take() else {
            return;
        };
        let source = shrink(&source, |source| about(source, &jets).is_some());
        let jets = shrink(&jets, |jets| about(&source, jets).is_some());
        if let Some(found) = about(&source, &jets) {
            self.tally.smallest = Some(found);
        }
    }

    fn add(&mut self, other: Comparison) {
        self.tally.add(other.tally);
        self.bytes.add(other.bytes);
        self.parsed += other.parsed;
        add_all(&mut self.answers, &other.answers);
        add_all(&mut self.files, &other.files);
    }
}

/// Runs every part on all cores, and gives them in their order.
pub fn run(scale: &Scale) -> Vec<Done<Comparison>> {
    run::run(&PARTS, scale, Comparison::default)
}

/// What the library disagrees on about one file, with tables of several lengths.
fn about(source: &[u8], jets: &[u8]) -> Option<Disagreement> {
    let mut comparison = Comparison::default();
    let mut lents = vec![ROOM, WORDS, [0; TABLES]];
    lents.extend(limits::one_word_short());
    comparison.compare_lent(source, &List::new(jets), &lents);
    comparison.tally.smallest.or(comparison.bytes.smallest)
}

#[cfg(test)]
mod tests {
    use super::*;

    #[test]
    fn answers_are_counted_by_number() {
        let mut comparison = Comparison::default();
        let list = List::new(b"verify");
        let short = limits::one_word_short()[2];
        comparison.compare(b"a := jet_verify", &list);
        comparison.compare_lent(b"a := (", &list, &[ROOM, short]);
        comparison.compare(b"a := pair const 0b01 jet_v", &list);
        assert_eq!((comparison.parsed, comparison.tally.comparisons), (3, 4));
        let met = [0, 1, 6, 10].map(|no| comparison.answers[no]);
        assert_eq!((met, comparison.answers.iter().sum()), ([1; 4], 4));
        assert_eq!(comparison.disagreements(), 0);
    }

    #[test]
    fn bytes_of_literals_are_compared_with_their_file() {
        let mut comparison = Comparison::default();
        let fail = format!("a := pair const 0x1234 fail 0x{}", "5".repeat(40));
        comparison.compare(fail.as_bytes(), &List::new(b""));
        // a word of two bytes, an entropy of 64, and what is asked past the end of each
        assert!(comparison.bytes.comparisons >= 2 + 64 + 2);
        assert_eq!(comparison.disagreements(), 0);
    }

    #[test]
    fn the_shortest_file_that_disagrees_is_kept() {
        let mut comparison = Comparison::default();
        for source in [&b"abc"[..], b"ab", b"abcd", b"xy"] {
            comparison.keep(source, &List::new(source));
        }
        let shortest = (b"ab".to_vec(), b"ab".to_vec());
        assert_eq!(comparison.found, Some(shortest));
    }

    #[test]
    fn counts_are_added() {
        let mut sum = Comparison::default();
        for _ in 0..2 {
            let mut comparison = Comparison::default();
            comparison.compare(b"a := unit", &List::new(b""));
            sum.add(comparison);
        }
        assert_eq!(
            (sum.parsed, sum.answers[0], sum.tally.comparisons),
            (2, 2, 2)
        );
    }
}

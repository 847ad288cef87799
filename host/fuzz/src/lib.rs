//! The comparison of one input of the fuzzer, by the functions of the comparing run, and changes to an input. The Rust
//! recurses, so the comparison has to be used inside `oracle::with_stack`.

mod mistaken;
mod tokens;

pub use mistaken::Mistaken;
pub use tokens::changed;

use std::fmt::{self, Display};
use zaghdurem_host::reader::{Callee, Comparison};
use zaghdurem_host::shrink::shrink;
use zaghdurem_host::tally::Disagreement;

/// How many answers there are: none refused, and the refusals 1 to 13.
pub const ANSWERS: usize = 14;

/// The jet list and the source of an input: what stands before its first byte 0, and what stands behind it. An input without
/// such a byte is all source.
pub fn parted(input: &[u8]) -> (&[u8], &[u8]) {
    match input.iter().position(|&byte| byte == 0) {
        Some(end) => (&input[..end], &input[end + 1..]),
        None => (&[], input),
    }
}

/// The comparison of a reader with the oracle, one input after the other.
pub struct Fuzzed {
    callee: &'static dyn Callee,
    comparison: Comparison,
}

impl Fuzzed {
    pub fn new(callee: &'static dyn Callee) -> Self {
        Fuzzed {
            callee,
            comparison: Comparison::new(callee),
        }
    }

    /// Compares one input: the number of its answer, or a smaller input on which reader and oracle disagree.
    pub fn compare(&mut self, input: &[u8]) -> Result<usize, Found> {
        let before = self.comparison.met.answers;
        let (jets, source) = parted(input);
        self.comparison.compare_file(source, jets);
        match self.comparison.tallies.smallest() {
            Some(disagreement) => Err(self.smaller(input, disagreement.clone())),
            None => {
                let came = |&no: &usize| self.comparison.met.answers[no] > before[no];
                Ok((0..ANSWERS).find(came).expect("an answer for each input"))
            }
        }
    }

    /// An input made smaller, with what disagrees about it.
    fn smaller(&self, input: &[u8], disagreement: Disagreement) -> Found {
        let input = shrink(input, |input| self.about(input).is_some());
        let disagreement = self.about(&input).unwrap_or(disagreement);
        Found {
            input,
            disagreement,
        }
    }

    /// What the reader disagrees on about one input.
    fn about(&self, input: &[u8]) -> Option<Disagreement> {
        let (jets, source) = parted(input);
        let mut comparison = Comparison::new(self.callee);
        comparison.compare_file(source, jets);
        comparison.tallies.smallest().cloned()
    }
}

impl Display for Fuzzed {
    /// How much was compared, and what was met.
    fn fmt(&self, out: &mut fmt::Formatter<'_>) -> fmt::Result {
        let Comparison { tallies, met, .. } = &self.comparison;
        write!(out, "{}; {met}", tallies.total())
    }
}

/// An input that shows a disagreement, and one that it shows.
#[derive(Debug)]
pub struct Found {
    pub input: Vec<u8>,
    pub disagreement: Disagreement,
}

impl Display for Found {
    fn fmt(&self, out: &mut fmt::Formatter<'_>) -> fmt::Result {
        let (jets, _) = parted(&self.input);
        writeln!(out, "  jet list: \"{}\"", jets.escape_ascii())?;
        write!(out, "{}", self.disagreement)
    }
}

#[cfg(test)]
mod tests;

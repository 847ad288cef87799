//! What a comparison found.

use std::fmt::{self, Display};
use zaghdurem_host::tally::Tally;

/// What was compared, and what came of it.
#[derive(Default)]
pub struct Outcome {
    /// How many sources the lexers had, how many files the parsers and how many the readers.
    pub lexed: u64,
    pub parsed: u64,
    pub read: u64,
    pub library: Tally,
    /// That of the reference for positions, which is no answer of the library and stays out of its tally.
    pub reference: Tally,
    /// What no file met, so that nothing is said about it.
    pub unmet: Vec<String>,
}

impl Outcome {
    /// Whether nothing disagrees and everything was met.
    pub fn is_sound(&self) -> bool {
        self.library.disagreements + self.reference.disagreements == 0 && self.unmet.is_empty()
    }

    /// Prints what was never met, and the smallest inputs that disagree.
    pub fn print_faults(&self) {
        for what in &self.unmet {
            println!("{what} was never met, so nothing is said about it");
        }
        if let Some(found) = &self.library.smallest {
            println!("the smallest disagreement of all:\n{found}");
        }
        if let Some(found) = &self.reference.smallest {
            println!("the smallest disagreement of the reference for positions:\n{found}");
        }
    }

    /// Adds what was found with another seed.
    pub fn add(&mut self, other: Outcome) {
        self.lexed += other.lexed;
        self.parsed += other.parsed;
        self.read += other.read;
        self.library.add(other.library);
        self.reference.add(other.reference);
        self.unmet.extend(other.unmet);
    }
}

impl Display for Outcome {
    fn fmt(&self, out: &mut fmt::Formatter<'_>) -> fmt::Result {
        write!(
            out,
            "{} sources lexed, {} files parsed, {} files read, {}",
            self.lexed, self.parsed, self.read, self.library
        )
    }
}

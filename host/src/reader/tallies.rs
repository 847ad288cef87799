//! What is counted about each thing that a reader is asked.

use crate::tally::{Disagreement, Tally};

#[derive(Clone, Debug, Default)]
pub struct Tallies {
    /// One comparison for each call of `read`: its row and all tables.
    pub calls: Tally,
    /// One for each call of `list`: its row, its text, the whole output and all tables.
    pub listings: Tally,
    /// One for each file's chain of roots.
    pub roots: Tally,
    /// One for each name's text, and for numbers that no name has.
    pub texts: Tally,
    /// One for each name of a file, the types that count for it, and one for each file whose tables have types.
    pub types: Tally,
    /// Two for each file: its roots and its errors, as the Rust itself gives them.
    pub rust: Tally,
}

impl Tallies {
    /// All of them, with what they are about.
    pub fn all(&self) -> [(&'static str, &Tally); 6] {
        [
            ("calls", &self.calls),
            ("listings", &self.listings),
            ("roots", &self.roots),
            ("texts of names", &self.texts),
            ("types of names", &self.types),
            ("the Rust's own roots and errors", &self.rust),
        ]
    }

    pub fn disagreements(&self) -> u64 {
        let counts = self.all().into_iter();
        counts.map(|(_, tally)| tally.disagreements).sum()
    }

    /// A disagreement, if there is one.
    pub fn smallest(&self) -> Option<&Disagreement> {
        let all = self.all().into_iter();
        all.filter_map(|(_, tally)| tally.smallest.as_ref()).next()
    }

    pub fn add(&mut self, other: Tallies) {
        self.calls.add(other.calls);
        self.listings.add(other.listings);
        self.roots.add(other.roots);
        self.texts.add(other.texts);
        self.types.add(other.types);
        self.rust.add(other.rust);
    }

    /// All in one.
    pub fn total(&self) -> Tally {
        let mut total = Tally::default();
        for (_, tally) in self.all() {
            total.add(tally.clone());
        }
        total
    }
}

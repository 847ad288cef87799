//! The reader, against the oracle's `parse_inner` and the limits of the rules page: each file's answer, every word of the
//! eight tables it is lent, its listing, its roots, the texts of its names and the types that count for each, and what the
//! Rust itself gives for it.

mod answered;
mod callee;
mod chains;
mod departures;
mod graphs;
mod inputs;
mod lent;
mod limits;
mod lines;
mod listings;
mod many;
mod met;
#[cfg(test)]
mod mistakes;
mod orders;
#[cfg(test)]
mod reference;
mod roots;
mod rust;
mod shapes;
mod tallies;
#[cfg(test)]
mod tests;
mod types;

pub use callee::{Callee, Library};
pub use departures::Departures;
pub use many::{compare_files, Many};
pub use met::Met;
pub use tallies::Tallies;

use crate::buffer::Buffer;
use crate::expected::{whole_with, UserTypes, Whole};
use crate::library::Read;
use crate::list::List;
use crate::output::Output;
use crate::run::{self, Counted, Done};
use crate::scale::Scale;
use crate::shrink::shrink;
use crate::tally::{answer, Disagreement};
use crate::zaghdurem::LISTING_BYTES;
use answered::Answered;
use inputs::PARTS;
use lent::{one_word_short, rule, ROOM, TABLES, WORDS};

/// The comparison of readers: what is counted, and the buffers that serve every call. It has to be used inside
/// `oracle::with_stack`.
pub struct Comparison {
    callee: &'static dyn Callee,
    pub tallies: Tallies,
    pub met: Met,
    pub departures: Departures,
    /// The shortest source that disagrees, with its jet list.
    found: Option<(Vec<u8>, Vec<u8>)>,
    buffer: Buffer<TABLES>,
    output: Output,
}

/// A file, and all that the oracle says about it.
struct Asked<'a> {
    source: &'a [u8],
    list: &'a List,
    whole: &'a Whole,
}

impl Asked<'_> {
    fn question(&self, lent: [usize; TABLES]) -> String {
        let jets = self.list.bytes.escape_ascii();
        format!("tables of {lent:?} words, jet list \"{jets}\"")
    }
}

/// What is told about a call: its row, and the first word that is not as it must be, with where it stands.
#[derive(Debug, PartialEq, Eq)]
struct Told {
    row: Read,
    word: Option<(String, u32)>,
}

impl Comparison {
    /// A comparison of this reader with the oracle that has counted nothing.
    pub fn new(callee: &'static dyn Callee) -> Self {
        Comparison {
            callee,
            tallies: Tallies::default(),
            met: Met::default(),
            departures: Departures::default(),
            found: None,
            buffer: Buffer::default(),
            output: Output::new(LISTING_BYTES),
        }
    }

    /// Compares the answer about a source with its jet list, with tables longer than they have to be.
    pub fn compare_file(&mut self, source: &[u8], jets: &[u8]) {
        self.compare(source, &List::new(jets));
    }

    /// The same with a jet list that serves many sources.
    fn compare(&mut self, source: &[u8], list: &List) {
        self.compare_lent(source, list, &[ROOM]);
    }

    /// The same with several sets of tables of so many words.
    fn compare_lent(&mut self, source: &[u8], list: &List, lents: &[[usize; TABLES]]) {
        let whole = &whole_with(source, &list.known);
        let asked = Asked {
            source,
            list,
            whole,
        };
        let before = self.tallies.disagreements();
        self.met.of_file(&whole.expected);
        self.departures.of_file(source, whole);
        for &lent in lents {
            self.compare_call(&asked, lent);
            self.compare_listings(&asked, lent);
        }
        if self.tallies.disagreements() > before {
            self.keep(source, list);
        }
    }

    /// Compares one call: its row, the whole buffer after it, and what follows from the tables if nothing is refused.
    fn compare_call(&mut self, asked: &Asked, lent: [usize; TABLES]) {
        let tables = self.buffer.lend(lent).into();
        let row = self.callee.read(asked.source, &asked.list.bytes, tables);
        let rule = rule(&asked.whole.expected, lent);
        self.met.answers[rule.row.no as usize] += 1;
        let (is, must) = parted(self.buffer.first_difference(rule.tables));
        let told = Told { row, word: is };
        let wanted = Told {
            row: rule.row,
            word: must,
        };
        let (told, wanted) = (answer("library", told), answer("oracle", wanted));
        let question = || asked.question(lent);
        let tallies = &mut self.tallies;
        tallies.calls.compare(asked.source, question, told, wanted);
        if row.no != 0 {
            return;
        }
        let answered = Answered {
            source: asked.source,
            tables: self.buffer.records(),
            row,
        };
        compare_types(&answered, &asked.whole.types, tallies);
        let roots = roots::compare(self.callee, &answered, &asked.whole.expected, tallies);
        rust::compare(&answered, &roots, asked.whole.rust.as_ref(), tallies);
    }

    /// Keeps a file that disagrees, if its source is the shortest so far.
    fn keep(&mut self, source: &[u8], list: &List) {
        let shorter = |(known, _): &(Vec<u8>, Vec<u8>)| source.len() < known.len();
        if self.found.as_ref().is_none_or(shorter) {
            self.found = Some((source.to_vec(), list.bytes.clone()));
        }
    }

    /// What the reader disagrees on about one file, with tables of several lengths.
    fn about(&self, source: &[u8], jets: &[u8]) -> Option<Disagreement> {
        let mut comparison = Comparison::new(self.callee);
        let mut lents = vec![ROOM, WORDS, [0; TABLES]];
        lents.extend(one_word_short());
        comparison.compare_lent(source, &List::new(jets), &lents);
        comparison.tallies.smallest().cloned()
    }
}

/// Where something stands, and what.
type At<P, T> = Option<(P, T)>;

/// A difference as what is there and what must be, each with where it stands.
fn parted<P: Clone, T>(difference: Option<(P, T, T)>) -> (At<P, T>, At<P, T>) {
    match difference {
        None => (None, None),
        Some((place, is, must)) => (Some((place.clone(), is)), Some((place, must))),
    }
}

/// Compares the types of each name as they follow from the tables of a call.
fn compare_types(answered: &Answered, wanted: &[UserTypes], tallies: &mut Tallies) {
    let (source, told) = (answered.source, answered.user_types());
    let readable = "whether types follow from the records".to_owned();
    let (follow, must) = (answer("library", told.is_some()), answer("oracle", true));
    tallies.types.compare(source, || readable, follow, must);
    let told = told.unwrap_or_default();
    for index in 0..told.len().max(wanted.len()) {
        tallies.types.compare(
            source,
            || format!("types that count for name {}", index + 1),
            answer("library", told.get(index)),
            answer("oracle", wanted.get(index)),
        );
    }
}

impl Counted for Comparison {
    /// Makes the shortest file that disagrees smaller still, first its source and then its jet list.
    fn shrink_disagreement(&mut self) {
        let Some((source, jets)) = self.found.take() else {
            return;
        };
        let source = shrink(&source, |source| self.about(source, &jets).is_some());
        let jets = shrink(&jets, |jets| self.about(&source, jets).is_some());
        if let Some(found) = self.about(&source, &jets) {
            self.tallies.calls.smallest = Some(found);
        }
    }

    fn add(&mut self, other: Comparison) {
        self.tallies.add(other.tallies);
        self.met.add(&other.met);
        self.departures.add(&other.departures);
    }
}

/// Runs every part on all cores, comparing this reader with the oracle, and gives them in their order.
pub fn run(callee: &'static dyn Callee, scale: &Scale) -> Vec<Done<Comparison>> {
    run::run(&PARTS, scale, || Comparison::new(callee))
}

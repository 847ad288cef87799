//! The roots of a file and the texts of its names, as the accessors give them over the tables that a call left.

use super::answered::Answered;
use super::{Callee, Tallies};
use crate::expected::{Expected, NAMES, NODES, WIDTHS};
use crate::library::Span;
use crate::tally::answer;

/// Numbers that no name has, whatever the source.
const NO_NAMES: [u32; 4] = [0, 1_025, 1 << 30, u32::MAX];

/// Compares the roots, whose numbers are given, and the text of each name.
pub fn compare(
    callee: &dyn Callee,
    answered: &Answered,
    wanted: &Expected,
    tallies: &mut Tallies,
) -> Vec<u32> {
    let roots = chain(callee, answered);
    let must: Vec<u32> = wanted.roots.iter().map(|root| root.number).collect();
    tallies.roots.compare(
        answered.source,
        || "the chain of roots, as numbers of names".to_owned(),
        answer("library", &roots),
        answer("oracle", &must),
    );
    compare_texts(callee, answered, wanted, tallies);
    roots
}

/// The roots one by one, each behind the last. A chain that does not rise ends where it falls.
fn chain(callee: &dyn Callee, answered: &Answered) -> Vec<u32> {
    let (names, nodes) = (answered.tables[NAMES], answered.tables[NODES]);
    let row = answered.row;
    let (mut roots, mut after) = (Vec::new(), 0);
    loop {
        let next = callee.next_root((names, row.names), (nodes, row.nodes), after);
        if next != 0 {
            roots.push(next);
        }
        if next <= after {
            return roots;
        }
        after = next;
    }
}

/// Compares the text of each name, and of numbers that no name has.
fn compare_texts(
    callee: &dyn Callee,
    answered: &Answered,
    wanted: &Expected,
    tallies: &mut Tallies,
) {
    let names = (answered.tables[NAMES], answered.row.names);
    let count = wanted.counts[NAMES];
    let numbers = (1..=count + 1).chain([1_024]).chain(NO_NAMES);
    for number in numbers {
        let told = callee.name_text(answered.source, names, number);
        let mut records = wanted.tables[NAMES].chunks_exact(WIDTHS[NAMES]);
        let record = (number as usize)
            .checked_sub(1)
            .and_then(|index| records.nth(index));
        let must = record.map_or(Span::default(), |name| Span {
            start: name[0],
            len: name[1],
        });
        tallies.texts.compare(
            answered.source,
            || format!("the text of name {number}"),
            answer("library", told),
            answer("oracle", must),
        );
    }
}

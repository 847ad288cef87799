//! What the Rust itself must give for a source, as it follows from the library's tables by the differences that
//! docs/DIFFERENCES.md lists and by no other: step 3 goes over the parts of each root, reports what is missing or incomplete
//! there, and gives the root if nothing is and if no assertion on a literal CMR is among them.

use std::collections::BTreeSet;

use super::answered::Answered;
use super::Tallies;
use crate::expected::{Rust, ERRORS, NAMES, NODES};
use crate::tally::answer;
use oracle::ErrorRow;

const MISSING: u32 = 1;
const NOEXPR: u32 = 2;
const ASSERTL: u32 = 4;
const ASSERTR: u32 = 5;

/// A root, and why step 3 would drop it.
#[derive(Clone, Debug, PartialEq, Eq)]
pub struct RootView {
    pub text: String,
    /// A part of it is missing or incomplete.
    pub faulty: bool,
    /// A part of it is an assertion on a literal CMR.
    pub literal: bool,
}

/// Roots and errors as step 3 sees them.
#[derive(Clone, Debug, PartialEq, Eq)]
pub struct View {
    pub roots: Vec<RootView>,
    /// Errors by place, those of nodes once for each root.
    pub reported: Vec<ErrorRow>,
}

impl View {
    /// The roots that step 3 gives.
    pub fn kept(&self) -> BTreeSet<String> {
        let kept = |root: &&RootView| !root.faulty && !root.literal;
        let roots = self.roots.iter().filter(kept);
        roots.map(|root| root.text.clone()).collect()
    }

    /// Whether nothing keeps the Rust from giving all roots: no errors, no literal CMR.
    pub fn whole(&self) -> bool {
        self.reported.is_empty() && self.roots.iter().all(|root| !root.literal)
    }
}

/// Compares the Rust's own roots and errors with what must follow from the tables of a call and the roots that were told.
/// Where nothing keeps the Rust from giving all roots, the roots told are its own.
pub fn compare(answered: &Answered, roots: &[u32], rust: Option<&Rust>, tallies: &mut Tallies) {
    let view = answered.view(roots);
    let told = view.as_ref().map(|view| match view.whole() {
        true => view.roots.iter().map(|root| root.text.clone()).collect(),
        false => view.kept(),
    });
    tallies.rust.compare(
        answered.source,
        || "the roots in the Rust's map".to_owned(),
        answer("library", told.as_ref()),
        answer("oracle", rust.map(|rust| &rust.roots)),
    );
    tallies.rust.compare(
        answered.source,
        || "the errors that the Rust reports".to_owned(),
        answer("library", view.as_ref().map(|view| &view.reported)),
        answer("oracle", rust.map(|rust| &rust.reported)),
    );
}

impl Answered<'_> {
    /// What step 3 makes of the tables, if these are the numbers of the roots' names. None if a record is no name, node or
    /// error, or if a child does not stand before its parent.
    pub fn view(&self, roots: &[u32]) -> Option<View> {
        let mut reported = self.line_errors()?;
        let mut seen = Vec::new();
        for &number in roots {
            let &[start, len, _, node] = self.record(NAMES, number)? else {
                return None;
            };
            let mut root = RootView {
                text: self.text(start, len)?.to_owned(),
                faulty: false,
                literal: false,
            };
            let mut parts = BTreeSet::new();
            self.parts(node, &mut parts)?;
            for part in parts {
                self.part(part, &mut root, &mut reported)?;
            }
            seen.push(root);
        }
        // an error's place tells what it is about, so those at one place are all the same
        reported.sort_by_key(|error| error.start);
        Some(View {
            roots: seen,
            reported,
        })
    }

    fn line_errors(&self) -> Option<Vec<ErrorRow>> {
        let errors = (1..=self.row.errors).map(|number| self.record(ERRORS, number));
        let mut rows = Vec::new();
        for error in errors {
            let &[kind, start, name, len] = error? else {
                return None;
            };
            if kind <= 2 {
                rows.push(self.error(kind, start, (name, len))?);
            }
        }
        Some(rows)
    }

    fn error(&self, kind: u32, start: u32, (name, len): (u32, u32)) -> Option<ErrorRow> {
        Some(ErrorRow {
            kind,
            start: start as usize,
            name: self.text(name, len)?.to_owned(),
        })
    }

    /// Puts the numbers of a node and of all nodes under it into a set.
    fn parts(&self, node: u32, parts: &mut BTreeSet<u32>) -> Option<()> {
        if !parts.insert(node) {
            return Some(());
        }
        let record = self.record(NODES, node)?;
        for child in [record[3], record[4]] {
            if child >= node {
                return None;
            }
            if child != 0 {
                self.parts(child, parts)?;
            }
        }
        Some(())
    }

    /// What step 3 does with a node of a root.
    fn part(&self, node: u32, root: &mut RootView, reported: &mut Vec<ErrorRow>) -> Option<()> {
        let &[kind, start, _, left, right, span, len, _] = self.record(NODES, node)? else {
            return None;
        };
        if kind == MISSING || kind == NOEXPR {
            root.faulty = true;
            reported.push(self.error(kind + 2, start, (span, len))?);
        }
        let assertion = kind == ASSERTL || kind == ASSERTR;
        root.literal |= assertion && (left == 0 || right == 0);
        Some(())
    }
}

//! What was met in the files of a comparison, so that nothing is said about what never came.

use std::fmt::{self, Display};

use crate::expected::{Expected, ERRORS, ERROR_WORDS, NODES, NODE_WORDS, WIDTHS};
use crate::generate::Shape;
use crate::run::add_all;

/// How many answers there are: none refused, and the refusals 1 to 13.
const ANSWERS: usize = 14;

#[derive(Clone, Debug, Default, PartialEq, Eq)]
pub struct Met {
    /// How many files were read, some of them with several sets of tables.
    pub files: u64,
    /// How many calls had each answer.
    pub answers: [u64; ANSWERS],
    /// How many nodes there were of each kind, which is 1 for the first.
    pub nodes: [u64; NODE_WORDS.len()],
    /// How many errors there were of each kind, which is 1 for the first.
    pub errors: [u64; ERROR_WORDS.len()],
    /// How many files of each family were made, in the order of `Shape::ALL`.
    pub made: [u64; Shape::ALL.len()],
}

impl Met {
    /// Counts a file with its nodes and errors.
    pub(super) fn of_file(&mut self, wanted: &Expected) {
        self.files += 1;
        let kinds = [(NODES, &mut self.nodes[..]), (ERRORS, &mut self.errors[..])];
        for (table, counts) in kinds {
            for record in wanted.tables[table].chunks_exact(WIDTHS[table]) {
                if let Some(count) = counts.get_mut((record[0] as usize).wrapping_sub(1)) {
                    *count += 1;
                }
            }
        }
    }

    pub(super) fn add(&mut self, other: &Met) {
        self.files += other.files;
        add_all(&mut self.answers, &other.answers);
        add_all(&mut self.nodes, &other.nodes);
        add_all(&mut self.errors, &other.errors);
        add_all(&mut self.made, &other.made);
    }

    /// What never came: a refusal, a kind of node or of error.
    pub fn unmet(&self) -> Vec<String> {
        let refusals = (1..ANSWERS).filter(|&no| self.answers[no] == 0);
        let mut unmet: Vec<String> = refusals.map(|no| format!("refusal {no}")).collect();
        let nodes = NODE_WORDS.iter().zip(self.nodes);
        let errors = ERROR_WORDS.iter().zip(self.errors);
        for (kind, count) in nodes.chain(errors) {
            if count == 0 {
                unmet.push(format!("kind {kind}"));
            }
        }
        unmet
    }

    /// How many nodes there were of each kind.
    pub fn node_kinds(&self) -> String {
        counted(NODE_WORDS.iter().zip(self.nodes))
    }
}

impl Display for Met {
    /// The answers and the kinds of errors that came.
    fn fmt(&self, out: &mut fmt::Formatter<'_>) -> fmt::Result {
        let numbers: Vec<String> = (1..ANSWERS).map(|no| format!("refused {no}")).collect();
        let answers = ["read"]
            .into_iter()
            .chain(numbers.iter().map(String::as_str));
        let answers: Vec<&str> = answers.collect();
        let errors = ERROR_WORDS.iter().zip(self.errors);
        write!(
            out,
            "answers: {}; nodes: {}; errors: {}",
            counted(answers.iter().zip(self.answers)),
            self.nodes.iter().sum::<u64>(),
            counted(errors)
        )
    }
}

/// The counts that are not 0, with what they count.
fn counted<'a>(counts: impl Iterator<Item = (&'a &'a str, u64)>) -> String {
    let shown = counts.filter(|(_, count)| *count > 0);
    let shown: Vec<String> = shown
        .map(|(what, count)| format!("{count} {what}"))
        .collect();
    if shown.is_empty() {
        return "none".to_owned();
    }
    shown.join(", ")
}

#[cfg(test)]
mod tests {
    use super::*;
    use crate::expected::expected_with;

    /// What is met in one file.
    fn met(source: &str) -> Met {
        let mut met = Met::default();
        let e = expected_with(source.as_bytes(), &oracle::Jets::new(b""));
        met.of_file(&e);
        met.answers[e.no as usize] += 1;
        met
    }

    #[test]
    fn what_never_came_is_told() {
        let mut sum = met("a := injr prim b : 1 -> 1");
        sum.add(&met("a := )"));
        let unmet = sum.unmet();
        let told = |what: &str| unmet.iter().any(|unmet| unmet == what);
        for never in [
            "refusal 5",
            "kind ref",
            "kind word",
            "kind illegal",
            "kind repeated",
        ] {
            assert!(told(never), "{never}");
        }
        for came in ["refusal 6", "kind missing", "kind noexpr", "kind injr"] {
            assert!(!told(came), "{came}");
        }
        assert_eq!(unmet.len(), 12 + 17 + 2);
    }

    #[test]
    fn what_came_is_shown() {
        let mut sum = met("a := b a := iden prim := unit");
        sum.add(&met("a := )"));
        let shown =
            "answers: 1 read, 1 refused 6; nodes: 1; errors: 1 illegal, 1 repeated, 1 missing";
        assert_eq!(sum.to_string(), shown);
        assert_eq!((sum.files, sum.node_kinds()), (2, "1 missing".to_owned()));
        assert_eq!(
            met("").to_string(),
            "answers: 1 read; nodes: 0; errors: none"
        );
    }
}

//! In how many files each difference from the Rust showed that docs/DIFFERENCES.md lists.

use super::answered::Answered;
use super::rust::{RootView, View};
use crate::expected::{Expected, Rust, Whole, ERRORS, EXPRESSIONS, NAMES, NODES, TYPES, WIDTHS};
use crate::run::add_all;

/// The differences that a file may show, by the rows of that page. It also lists what no file can show: spans and byte offsets
/// in place of lines and columns, `logos`, and what stands behind step 3.
#[derive(Clone, Copy, Debug, PartialEq, Eq)]
pub enum Departure {
    Bytes,
    LongSource,
    ManyTokens,
    Depth,
    LiteralCmr,
    NodesBesideErrors,
    OrderOfNames,
    FaultyRoot,
    LiteralRoot,
    OrderOfErrors,
    ErrorOnce,
    EndOfSource,
    AbsentOperand,
}

use Departure::*;

/// All of them, with what is said about each.
pub const DEPARTURES: [(Departure, &str); 13] = [
    (Bytes, "byte input: not UTF-8, so the Rust cannot be asked"),
    (
        LongSource,
        "limits: over 32,768 bytes, which the Rust takes",
    ),
    (
        ManyTokens,
        "limits: over 1,024 tokens, which the Rust takes",
    ),
    (Depth, "limits: over 128 levels, which the Rust takes"),
    (
        LiteralCmr,
        "kept CMR literals: an assertion has the literal's span",
    ),
    (
        NodesBesideErrors,
        "nodes beside errors: the Rust gives the errors alone",
    ),
    (OrderOfNames, "a fixed order of names: two names or more"),
    (
        FaultyRoot,
        "roots that step 3 drops: a part is missing or incomplete",
    ),
    (
        LiteralRoot,
        "roots that step 3 drops without any error: a literal CMR",
    ),
    (OrderOfErrors, "order of errors: not by place"),
    (
        ErrorOnce,
        "a missing or incomplete node under several roots: reported once",
    ),
    (
        EndOfSource,
        "places of refusals: the end of the source is its length",
    ),
    (
        AbsentOperand,
        "an absent operand: the types beside it are recorded",
    ),
];

/// The counts.
#[derive(Clone, Debug, Default, PartialEq, Eq)]
pub struct Departures {
    files: [u64; DEPARTURES.len()],
    /// How many files had nothing to keep the Rust from giving all roots, so that the two sets had to be the same.
    pub same_roots: u64,
}

impl Departures {
    /// Counts what a file shows.
    pub(super) fn of_file(&mut self, source: &[u8], whole: &Whole) {
        let e = &whole.expected;
        let shown = match &whole.rust {
            None => of_refusal(source, e),
            Some(rust) => {
                let answered = Answered::expected(source, e);
                let roots: Vec<u32> = e.roots.iter().map(|root| root.number).collect();
                let view = answered.view(&roots).expect("tables of the oracle");
                self.same_roots += u64::from(view.whole());
                of_tables(e, rust, &view)
            }
        };
        for ((departure, _), count) in DEPARTURES.iter().zip(&mut self.files) {
            *count += u64::from(shown.contains(departure));
        }
    }

    pub(super) fn add(&mut self, other: &Departures) {
        add_all(&mut self.files, &other.files);
        self.same_roots += other.same_roots;
    }

    /// In how many files each showed.
    pub fn rows(&self) -> impl Iterator<Item = (&'static str, u64)> + '_ {
        let rows = DEPARTURES.iter().zip(self.files);
        rows.map(|((_, what), files)| (*what, files))
    }

    /// What never showed.
    pub fn unmet(&self) -> Vec<String> {
        let never = self.rows().filter(|(_, files)| *files == 0);
        let never = never.map(|(what, _)| format!("the difference \"{what}\""));
        let mut unmet: Vec<String> = never.collect();
        if self.same_roots == 0 {
            unmet.push("a file with all its roots in the Rust's map".to_owned());
        }
        unmet
    }
}

/// What a refused source shows.
fn of_refusal(source: &[u8], e: &Expected) -> Vec<Departure> {
    match e.no {
        2 => vec![LongSource],
        3 => vec![Bytes],
        5 => vec![ManyTokens],
        13 => vec![Depth],
        6..=12 if e.place as usize == source.len() => vec![EndOfSource],
        _ => Vec::new(),
    }
}

/// What a source shows that is read.
fn of_tables(e: &Expected, rust: &Rust, view: &View) -> Vec<Departure> {
    let assertions = e.tables[EXPRESSIONS].chunks_exact(WIDTHS[EXPRESSIONS]);
    let mut literals = assertions.filter(|row| [4, 5].contains(&row[0]) && row[2].min(row[3]) == 0);
    let ours: Vec<(u32, u32)> = e.tables[ERRORS]
        .chunks_exact(WIDTHS[ERRORS])
        .map(|row| (row[0], row[1]))
        .collect();
    let reported = rust.reported.iter();
    let mut theirs: Vec<(u32, u32)> = reported.map(|row| (row.kind, row.start as u32)).collect();
    theirs.dedup();
    let faulty = |root: &RootView| root.faulty;
    let literal = |root: &RootView| root.literal && !root.faulty;
    let shown = [
        (LiteralCmr, literals.next().is_some()),
        (
            NodesBesideErrors,
            e.counts[ERRORS] > 0 && e.counts[NODES] > 0,
        ),
        (OrderOfNames, e.counts[NAMES] > 1),
        (FaultyRoot, view.roots.iter().any(faulty)),
        (LiteralRoot, view.roots.iter().any(literal)),
        (OrderOfErrors, ours != theirs),
        (ErrorOnce, rust.reported.len() > ours.len()),
        (AbsentOperand, e.counts[TYPES] as usize > rust.types),
    ];
    let shown = shown.into_iter().filter(|(_, shows)| *shows);
    shown.map(|(departure, _)| departure).collect()
}

#[cfg(test)]
mod tests {
    use super::*;
    use crate::expected::whole_with;

    /// What one file shows.
    fn shown(source: &[u8]) -> Vec<Departure> {
        let mut departures = Departures::default();
        let jets = oracle::Jets::new(b"");
        oracle::with_stack(|| departures.of_file(source, &whole_with(source, &jets)));
        let rows = DEPARTURES.iter().zip(departures.files);
        let rows = rows.filter(|(_, files)| *files > 0);
        rows.map(|((departure, _), _)| *departure).collect()
    }

    #[test]
    fn each_difference_shows_where_it_should_and_nowhere_else() {
        let cmr = format!("#{}", "5a".repeat(32));
        let text = |front: &str| front.replace('#', &cmr).into_bytes();
        for (source, wanted) in [
            (text("a := unit"), &[][..]),
            (text("a := )"), &[]),
            (text("a := \u{e9}"), &[]),
            (b"a := \xff".to_vec(), &[Bytes]),
            (vec![b' '; 32_769], &[LongSource]),
            (text(&"a ".repeat(1_025)), &[ManyTokens]),
            (text(&format!("a := {}", "take ".repeat(128))), &[Depth]),
            (text("a :="), &[EndOfSource]),
            (text("a : 1 + _ -> 2 a := unit"), &[AbsentOperand]),
            (text("a := unit b := iden"), &[OrderOfNames]),
            (text("a := unit _ := iden"), &[NodesBesideErrors]),
            (text("a := assertl unit #"), &[LiteralCmr, LiteralRoot]),
            (text("a := a"), &[NodesBesideErrors, FaultyRoot]),
            (
                text("a := pair x y"),
                &[NodesBesideErrors, FaultyRoot, OrderOfErrors],
            ),
            (
                text("a := c b := c c := x"),
                &[NodesBesideErrors, OrderOfNames, FaultyRoot, ErrorOnce],
            ),
            (
                text("a := assertl x #"),
                &[LiteralCmr, NodesBesideErrors, FaultyRoot],
            ),
        ] {
            assert_eq!(shown(&source), wanted, "{}", source.escape_ascii());
        }
    }

    #[test]
    fn what_never_showed_is_told() {
        let unmet = Departures::default().unmet();
        assert_eq!(unmet.len(), DEPARTURES.len() + 1);
    }
}

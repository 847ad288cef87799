//! The comparison against stand-ins: it agrees with the reference in every part, and finds every mistake.

use super::mistakes::{stand_in, Mistake};
use super::*;
use crate::run::tests::whole;
use crate::run::{Part, Piece};

/// A file on which each mistake shows, if one of its tables is a word too short in a second call; `#` is a literal CMR.
const SHOWN: [(Mistake, &str); 29] = [
    (Mistake::LeftChildFirst, "a := pair unit iden"),
    (Mistake::PlaceAtReference, "main := nosuch"),
    (Mistake::HoleIsUse, "a := pair b ?b b := unit"),
    (Mistake::UsesInCmrLeftOut, "a := assertl unit #{ a }"),
    (Mistake::LiteralCmrLost, "a := assertl unit #"),
    (Mistake::ReferencesDoNotCount, "a := b b := unit"),
    (Mistake::LastExpressionCounts, "a := unit a := iden"),
    (Mistake::OnlyPrimIsIllegal, "prima := unit"),
    (Mistake::NamesByPrefix, "a := unit ab := a"),
    (Mistake::NamesBackwards, "a := unit b := iden"),
    (Mistake::IllegalNameIsFound, "a := prim prim := unit"),
    (Mistake::RepeatedAtName, "a := unit a := iden"),
    (Mistake::TypeLineIsNoName, "a : 1 -> 1"),
    (Mistake::WorkLeft, "a := unit"),
    (Mistake::RecordLeftOnRefusal, "a := )"),
    (Mistake::WordPastTheRecords, ""),
    (Mistake::ShortTableWritten, ""),
    (Mistake::TypesSwapped, "a : 1 -> 2"),
    (Mistake::CountOfNodes, ""),
    (Mistake::ErrorsOfNodesLeftOut, "a := a"),
    (Mistake::IncompleteIsMissing, "a : 1 -> 1"),
    (Mistake::ErrorsByPlace, "a := b prim := unit"),
    (Mistake::FaultyRootLost, "a := b"),
    (Mistake::LiteralRootLost, "a := assertl unit #"),
    (Mistake::TextOfNoName, "ab := unit"),
    (Mistake::ListedInPart, ""),
    (Mistake::ByteBehindTheText, ""),
    (Mistake::NoTablesWithoutRoom, "a := unit"),
    (Mistake::PlaceOfTheEnd, "a :="),
];

/// The comparison of a stand-in over one file.
fn about(mistake: Mistake, source: &str) -> Comparison {
    let mut comparison = Comparison::new(stand_in(mistake));
    let lents = [ROOM, one_word_short()[7]];
    oracle::with_stack(|| {
        comparison.compare_lent(source.as_bytes(), &List::new(b""), &lents);
        comparison
    })
}

#[test]
fn every_mistake_is_found_and_nothing_else() {
    for (mistake, source) in SHOWN {
        let source = match source.strip_suffix('#') {
            Some(front) => format!("{front}#{}", "5a".repeat(32)),
            None => source.to_owned(),
        };
        assert!(
            about(mistake, &source).tallies.disagreements() > 0,
            "{mistake:?}"
        );
        let right = about(Mistake::None, &source);
        assert_eq!(right.tallies.smallest(), None, "{mistake:?}");
        let asked = [&right.tallies.calls, &right.tallies.listings];
        assert_eq!(asked.map(|tally| tally.comparisons), [2, 6]);
    }
}

#[test]
fn types_that_differ_are_told_by_name() {
    let found = about(Mistake::TypesSwapped, "b := unit a : 1 -> 2");
    let types = found.tallies.types;
    assert_eq!((types.comparisons, types.disagreements), (3, 1));
    assert_eq!(
        types.smallest.unwrap().question,
        "types that count for name 2"
    );
}

#[test]
fn a_disagreement_is_made_smaller() {
    let mut found = about(
        Mistake::RepeatedAtName,
        "x := unit\na := unit : 1 -> 1\na := pair a b\nb := a",
    );
    oracle::with_stack(|| {
        found.shrink_disagreement();
        let smallest = found.tallies.calls.smallest.unwrap();
        assert!(smallest.input.len() < 20, "{smallest}");
    });
}

#[test]
fn the_reference_agrees_with_the_oracle_in_every_part() {
    let callee = stand_in(Mistake::None);
    // the second of three pieces
    let (scale, number, of) = (whole(300).scale, 1, 3);
    let compare = |part: &Part<Comparison>| {
        let mut comparison = Comparison::new(callee);
        (part.compare)(&Piece { scale, number, of }, &mut comparison);
        comparison
    };
    let mut total = Comparison::new(callee);
    for part in &PARTS {
        let comparison = oracle::with_stack(|| compare(part));
        assert!(comparison.met.files > 0, "{}", part.name);
        let found = comparison.tallies.smallest();
        assert_eq!(found, None, "{}", part.name);
        total.add(comparison);
    }
    assert!(total.tallies.types.comparisons > total.met.files);
    assert_eq!(total.met.unmet(), [""; 0]);
    assert_eq!(total.departures.unmet(), [""; 0]);
}

#[test]
#[ignore = "takes minutes; run it with `cargo test --release -- --ignored`"]
fn the_reference_agrees_with_the_oracle_in_a_full_run() {
    let scale = Scale {
        quick: false,
        seed: 7,
        count: Scale::FULL_COUNT,
    };
    let mut total = Comparison::new(stand_in(Mistake::None));
    for part in run(stand_in(Mistake::None), &scale) {
        let found = part.comparison.tallies.smallest();
        assert_eq!(found, None, "{}", part.name);
        total.add(part.comparison);
    }
    println!("{} files, {}", total.met.files, total.met);
    assert_eq!(
        (total.met.unmet(), total.departures.unmet()),
        (vec![], vec![])
    );
}

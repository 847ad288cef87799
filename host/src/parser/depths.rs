//! Every form of nesting about 128 deep, alone and in turn with every other.

use super::{Comparison, List};
use crate::generate::{BOTTOMS, EXPRESSION_LEVELS, TYPE_BOTTOMS, TYPE_LEVELS};
use crate::run::Piece;

/// What stands before and behind the inner part, for one level.
type Level = (&'static str, &'static str);

const DEPTHS: std::ops::RangeInclusive<usize> = 126..=130;

/// More that may stand innermost in an expression: what is refused there for another reason, and what ends it.
const MORE_BOTTOMS: [&str; 9] = [
    "assertl",
    "assertl unit",
    "assertr",
    "assertr #",
    "assertr #{",
    "assertr # )",
    "const 0b111",
    "take const 0b111",
    "jet_nosuch",
];

const MORE_TYPE_BOTTOMS: [&str; 5] = ["2^4294967296", "( )", "( 2^3", "1 + ( 1 )", "1 +"];

/// What stands before and behind a nested type.
const ARROWS: [Level; 4] = [
    ("a :", "-> 1"),
    ("a : 1 ->", ""),
    ("a := unit :", "-> 1"),
    ("a := unit : _ * 2 ->", "b := unit"),
];

/// Each form of nesting, with each innermost part, to the end of the file or cut there.
pub fn each_form(piece: &Piece, comparison: &mut Comparison) {
    let list = List::new(b"");
    let each = (0..)
        .zip(forms())
        .filter(|&(number, _)| piece.takes(number));
    for (_, (arrow, level, bottom)) in each {
        for depth in DEPTHS {
            let levels = vec![level; depth - 1];
            for whole in [true, false] {
                comparison.compare(nested(arrow, &levels, bottom, whole).as_bytes(), &list);
            }
        }
    }
}

/// Any two forms of expressions in turn, 128 and 129 deep, and a last level of any other form.
pub fn two_forms(piece: &Piece, comparison: &mut Comparison) {
    let list = List::new(b"");
    let pairs = pairs(&EXPRESSION_LEVELS).chain(pairs(&TYPE_LEVELS));
    for (_, (one, two, arrow)) in (0..).zip(pairs).filter(|&(number, _)| piece.takes(number)) {
        let bottom = if arrow.1.is_empty() { "unit" } else { "2" };
        for depth in [128, 129] {
            let in_turn: Vec<Level> = [one, two].into_iter().cycle().take(depth - 1).collect();
            comparison.compare(nested(arrow, &in_turn, bottom, true).as_bytes(), &list);
            let mut at_last = vec![one; depth - 2];
            at_last.push(two);
            comparison.compare(nested(arrow, &at_last, bottom, true).as_bytes(), &list);
        }
    }
}

/// Each form with each innermost part, and what stands round it.
fn forms() -> Vec<(Level, Level, &'static str)> {
    let mut forms = Vec::new();
    for level in EXPRESSION_LEVELS {
        let bottoms = BOTTOMS.into_iter().skip(2).chain(MORE_BOTTOMS);
        forms.extend(bottoms.map(|bottom| (("a :=", ""), level, bottom)));
    }
    for level in TYPE_LEVELS {
        for arrow in ARROWS {
            let bottoms = TYPE_BOTTOMS.into_iter().chain(MORE_TYPE_BOTTOMS);
            forms.extend(bottoms.map(|bottom| (arrow, level, bottom)));
        }
    }
    forms
}

/// Any two of the forms, with what stands round them.
fn pairs(levels: &'static [Level]) -> impl Iterator<Item = (Level, Level, Level)> {
    let arrow = if levels.len() == TYPE_LEVELS.len() {
        ARROWS[0]
    } else {
        ("a :=", "")
    };
    let second = move |&one| levels.iter().map(move |&two| (one, two, arrow));
    levels.iter().flat_map(second)
}

/// The innermost part inside its levels, with a literal CMR for each `#` that stands alone.
fn nested(arrow: Level, levels: &[Level], bottom: &str, whole: bool) -> String {
    let mut parts = vec![arrow.0];
    parts.extend(levels.iter().map(|level| level.0));
    parts.push(bottom);
    if whole {
        parts.extend(levels.iter().rev().map(|level| level.1));
        parts.push(arrow.1);
    }
    let literal = format!("#{}", "9aF0".repeat(16));
    let tokens = parts.iter().flat_map(|part| part.split(' '));
    let tokens = tokens.filter(|token| !token.is_empty());
    let tokens = tokens.map(|token| {
        if token == "#" {
            literal.as_str()
        } else {
            token
        }
    });
    tokens.collect::<Vec<&str>>().join(" ")
}

#[cfg(test)]
mod tests {
    use super::*;
    use crate::expected::parsed_with;

    fn refusal(source: &str) -> u32 {
        let jets = oracle::Jets::new(b"");
        oracle::with_stack(|| parsed_with(source.as_bytes(), &jets).0.no)
    }

    #[test]
    fn each_form_of_nesting_is_read_128_deep_and_refused_129_deep() {
        for level in EXPRESSION_LEVELS {
            let file = |depth: usize| nested(("a :=", ""), &vec![level; depth - 1], "unit", true);
            assert_eq!(
                (refusal(&file(128)), refusal(&file(129))),
                (0, 13),
                "{level:?}"
            );
        }
        for level in TYPE_LEVELS {
            for arrow in ARROWS {
                let file = |depth: usize| nested(arrow, &vec![level; depth - 1], "1", true);
                assert_eq!(
                    (refusal(&file(128)), refusal(&file(129))),
                    (0, 13),
                    "{level:?}"
                );
            }
        }
    }

    #[test]
    fn pairs_are_all_there() {
        assert_eq!(pairs(&EXPRESSION_LEVELS).count(), 19 * 19);
        assert_eq!(pairs(&TYPE_LEVELS).count(), 25);
        assert_eq!(forms().len(), 19 * 23 + 5 * 4 * 13);
    }
}

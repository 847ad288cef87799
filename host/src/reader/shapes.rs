//! Deep and wide files: names under many levels, one name that uses many, many that use one, loops through all of them.

use super::Comparison;
use crate::list::List;
use crate::run::Piece;

/// Forms of nesting; the child stands at `@`.
const LEVELS: [&str; 9] = [
    "take @",
    "( @ )",
    "pair @ unit",
    "pair unit @",
    "assertl @ #{ unit }",
    "assertl unit #{ @ }",
    "assertr #{ @ } unit",
    "assertr #{ unit } @",
    "disconnect iden @",
];

/// What stands innermost: uses forwards and backwards, of itself, of nothing, and none.
const BOTTOMS: [&str; 6] = ["a", "b", "nosuch", "pair a b", "? a", "_"];

/// How many names a wide file has.
const WIDTHS: [usize; 7] = [1, 2, 3, 8, 21, 100, 203];

/// One name under every form of nesting, at every telling depth, with another that uses it.
pub fn deep(piece: &Piece, comparison: &mut Comparison) {
    let list = List::new(b"");
    let depths: &[usize] = match piece.scale.quick {
        true => &[1, 2, 3, 126],
        false => &[0, 1, 2, 3, 4, 5, 16, 64, 125, 126, 127, 128],
    };
    for (_, level) in (0..).zip(LEVELS).filter(|&(number, _)| piece.takes(number)) {
        for (bottom, depth) in BOTTOMS
            .iter()
            .flat_map(|b| depths.iter().map(move |d| (b, d)))
        {
            let body = nested(level, *depth, bottom);
            let other = nested(level, depth / 2, "a");
            for source in [
                format!("a := {body}\nb := unit"),
                format!("a := {body}\nb := {other}"),
                format!("b := {other}\na := {body}"),
                format!("b : 1 -> 1\na := {body}\nb := a"),
            ] {
                comparison.compare(source.as_bytes(), &list);
            }
        }
    }
}

/// Files in which one name uses many, many use one, all use all, and loops through all.
pub fn wide(piece: &Piece, comparison: &mut Comparison) {
    let list = List::new(b"");
    let widths = WIDTHS.into_iter().enumerate();
    for (_, width) in widths.filter(|&(number, _)| piece.takes(number)) {
        for leaf in ["unit", "main", "x", "n1"] {
            for source in wide_files(width, leaf) {
                comparison.compare(source.as_bytes(), &list);
            }
        }
    }
}

/// The files of one width; `leaf` is what each of the many is.
fn wide_files(width: usize, leaf: &str) -> Vec<String> {
    let names: Vec<String> = (1..=width).map(|number| format!("n{number}")).collect();
    let backwards: Vec<String> = names.iter().rev().cloned().collect();
    let lines: Vec<String> = names
        .iter()
        .map(|name| format!("{name} := {leaf}"))
        .collect();
    let (lines, main) = (
        lines.join("\n"),
        format!("main := {}", tree("pair", &names)),
    );
    let mut files = vec![
        format!("{main}\n{lines}"),
        format!("{lines}\n{main}"),
        format!("{lines}\nmain := {}", tree("comp", &backwards)),
        format!("x := unit\n{lines}\n{main}"),
    ];
    // every name uses every name, as far as there is room for it
    if width * (2 * width + 1) < 1_024 {
        let all = |name: &String| format!("{name} := {}", tree("case", &names));
        let dense: Vec<String> = backwards.iter().map(all).collect();
        files.push(dense.join("\n"));
        let others = |(number, name): (usize, &String)| {
            format!("{name} := {}", tree("pair", &names[number + 1..]))
        };
        let later: Vec<String> = names.iter().enumerate().map(others).collect();
        files.push(later.join("\n"));
    }
    files
}

/// A tree of this keyword with these leaves, as flat as can be; `unit` without any.
fn tree(keyword: &str, leaves: &[String]) -> String {
    match leaves {
        [] => "unit".to_owned(),
        [leaf] => leaf.clone(),
        leaves => {
            let (left, right) = leaves.split_at(leaves.len() / 2);
            format!("{keyword} {} {}", tree(keyword, left), tree(keyword, right))
        }
    }
}

fn nested(level: &str, depth: usize, bottom: &str) -> String {
    let (front, behind) = level.split_once('@').unwrap_or((level, ""));
    [&front.repeat(depth), bottom, &behind.repeat(depth)].concat()
}

#[cfg(test)]
mod tests {
    use super::*;
    use crate::expected::expected_with;

    fn counts(source: &str) -> (u32, [u32; 7]) {
        let jets = oracle::Jets::new(b"");
        oracle::with_stack(|| {
            let e = expected_with(source.as_bytes(), &jets);
            (e.no, e.counts)
        })
    }

    #[test]
    fn nesting_is_read_up_to_the_depth_it_may_have() {
        for level in LEVELS {
            assert_eq!(
                counts(&format!("a := {}", nested(level, 127, "a"))).0,
                0,
                "{level}"
            );
            assert_eq!(
                counts(&format!("a := {}", nested(level, 128, "a"))).0,
                13,
                "{level}"
            );
        }
    }

    #[test]
    fn wide_files_are_read_and_the_widest_are_nearly_full() {
        for width in WIDTHS {
            for source in wide_files(width, "n1") {
                assert_eq!(counts(&source).0, 0, "{source}");
            }
        }
        let [tokens, ..] = counts(&wide_files(203, "unit")[3]).1;
        assert!(tokens > 1_010, "{tokens}");
        assert_eq!(wide_files(21, "unit").len(), 6);
    }

    #[test]
    fn one_name_is_used_as_often_as_it_stands() {
        let jets = oracle::Jets::new(b"");
        let e = expected_with(wide_files(8, "x")[3].as_bytes(), &jets);
        let degrees: Vec<u32> = e.tables[5].chunks(8).map(|node| node[7]).collect();
        assert_eq!(degrees.iter().max(), Some(&8));
    }
}

//! Files nested about as deep as a source may be.

use super::layout::{any_style, write_out};
use super::{literals, spaced, File, Line, Shape};
use crate::random::Random;

/// What stands before and after the inner expression, one level for each pair.
/// `#` stands for a literal CMR.
pub const EXPRESSION_LEVELS: [(&str, &str); 19] = [
    ("(", ")"),
    ("injl", ""),
    ("injr", ""),
    ("take", ""),
    ("drop", ""),
    ("case", "unit"),
    ("case unit", ""),
    ("comp", "unit"),
    ("comp unit", ""),
    ("pair", "unit"),
    ("pair unit", ""),
    ("disconnect", "unit"),
    ("disconnect unit", ""),
    ("assertl", "#"),
    ("assertl", "#{ unit }"),
    ("assertl unit #{", "}"),
    ("assertr #{", "} unit"),
    ("assertr #{ unit }", ""),
    ("assertr #", ""),
];

/// What stands innermost; the empty one leaves a gap.
pub const BOTTOMS: [&str; 16] = [
    "unit",
    "unit",
    "unit",
    "a",
    "? a",
    "( unit )",
    "injl unit",
    "pair unit unit",
    "assertl unit #",
    "assertr # unit",
    "assertr #{ unit } unit",
    "assertr unit unit",
    "const _",
    "fail 0x00",
    ")",
    "",
];

pub const TYPE_LEVELS: [(&str, &str); 5] = [
    ("(", ")"),
    ("1 + (", ")"),
    ("(", ") * 2"),
    ("_ * (", ") + x"),
    ("( 1 *", ")"),
];

pub const TYPE_BOTTOMS: [&str; 8] = ["1", "2", "_", "x", "( 1 )", "2^3", ")", ""];

/// A file whose innermost part is 126 to 130 deep.
pub fn depth_limit(random: &mut Random) -> File {
    let levels = random.between(126, 130) - 1;
    let line = if random.chance(1, 4) {
        type_line(random, levels)
    } else {
        expression_line(random, levels)
    };
    let mut lines = vec![line];
    if random.chance(1, 3) {
        lines.insert(0, spaced("b := unit"));
    }
    if random.chance(1, 3) {
        lines.push(spaced("c := a"));
    }
    let style = any_style(random);
    File {
        shape: Shape::DepthLimit,
        source: write_out(&lines, style, random),
        jets: Vec::new(),
    }
}

fn expression_line(random: &mut Random, levels: usize) -> Line {
    let bottom = *random.pick(&BOTTOMS);
    let mut line = spaced("a :=");
    line.extend(nested(random, &EXPRESSION_LEVELS, levels, bottom));
    line
}

fn type_line(random: &mut Random, levels: usize) -> Line {
    let bottom = *random.pick(&TYPE_BOTTOMS);
    let mut line = spaced(&random.text(&["a :", "a : 1 ->", "a := unit :", "a := unit : _ ->"]));
    let left = !line.ends_with(&["->".to_owned()]);
    line.extend(nested(random, &TYPE_LEVELS, levels, bottom));
    if left {
        line.extend(spaced("-> 1"));
    }
    line
}

/// The bottom inside `levels` levels, all of one form or of many.
/// Sometimes the file ends at the bottom.
fn nested(random: &mut Random, forms: &[(&str, &str)], levels: usize, bottom: &str) -> Line {
    let one = *random.pick(forms);
    let mixed = random.chance(1, 4);
    let chosen: Vec<(&str, &str)> = (0..levels)
        .map(|_| if mixed { *random.pick(forms) } else { one })
        .collect();
    let mut out = Vec::new();
    for (before, _) in &chosen {
        put(&mut out, before, random);
    }
    put(&mut out, bottom, random);
    if random.chance(1, 8) {
        return out;
    }
    for (_, after) in chosen.iter().rev() {
        put(&mut out, after, random);
    }
    out
}

/// Adds the tokens of a text, a literal CMR for each `#`.
fn put(out: &mut Line, text: &str, random: &mut Random) {
    for token in text.split(' ').filter(|token| !token.is_empty()) {
        let literal = token == "#";
        out.push(if literal {
            literals::cmr(random)
        } else {
            token.to_owned()
        });
    }
}

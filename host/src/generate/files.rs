//! Grammatical files, sound and unsound, and files at the edges of single rules.

use super::arrows::{arrow, Exponents};
use super::expressions::{expression, Choices};
use super::layout::{any_style, write_out};
use super::vocabulary::{ILLEGAL_NAMES, NEAR_NAMES};
use super::{jets, literals, names, File, Line, Shape};
use crate::random::Random;

/// The most tokens of a grammatical file that is not meant to be refused.
const MOST_TOKENS: usize = 1024;

/// The depth that expressions keep to.
const MOST_DEPTH: usize = 100;

/// A file that reads without refusal and without error.
pub fn sound(random: &mut Random) -> File {
    let jets = jets::plain_list(random);
    let lines = sound_lines(random, &jets);
    written(Shape::Sound, &lines, jets, random)
}

/// A file that reads without refusal, most often with errors.
pub fn unsound(random: &mut Random) -> File {
    let jets = jets::plain_list(random);
    let lines = unsound_lines(random, &jets);
    written(Shape::Unsound, &lines, jets, random)
}

/// Literals of lengths on both sides of what `const` and `fail` take.
pub fn literal_edges(random: &mut Random) -> File {
    let count = random.between(1, 6);
    let lines: Vec<Line> = names::distinct(random, count)
        .iter()
        .map(|name| literal_line(random, name))
        .collect();
    written(Shape::LiteralEdges, &lines, Vec::new(), random)
}

/// Jets that the list knows or does not, by lists of every form.
pub fn jet_edges(random: &mut Random) -> File {
    let list = jets::any_list(random);
    let (known, all) = (jets::known(&list), jets::all());
    let count = random.between(1, 6);
    let mut lines = Vec::new();
    for name in names::distinct(random, count) {
        let pool = if known.is_empty() || random.chance(1, 4) {
            &all
        } else {
            &known
        };
        let choices = Choices {
            names: &[],
            strangers: false,
            jets: pool,
        };
        let body = if random.chance(2, 3) {
            vec![random.pick(pool).clone()]
        } else {
            expression(random, &choices, 12, MOST_DEPTH)
        };
        lines.push(definition(&name, body));
    }
    written(Shape::JetEdges, &lines, list, random)
}

/// Type lines and typed lines with exponents that are good or bad.
pub fn type_edges(random: &mut Random) -> File {
    let count = random.between(1, 8);
    let mut lines = Vec::new();
    for name in names::distinct(random, count) {
        let size = if random.chance(1, 8) {
            random.between(20, 120)
        } else {
            random.between(2, 16)
        };
        let types = arrow(random, Exponents::Any, size);
        if random.chance(1, 2) {
            lines.push(type_line(&name, types));
        } else {
            lines.push(typed(definition(&name, vec!["iden".to_owned()]), types));
        }
    }
    written(Shape::TypeEdges, &lines, Vec::new(), random)
}

/// The lines of a file without refusal, and its jet list.
pub(super) fn good_lines(random: &mut Random) -> (Vec<Line>, Vec<u8>) {
    let jets = jets::plain_list(random);
    let lines = if random.chance(1, 2) {
        sound_lines(random, &jets)
    } else {
        unsound_lines(random, &jets)
    };
    (lines, jets)
}

/// The lines written out in any style.
pub(super) fn written(shape: Shape, lines: &[Line], jets: Vec<u8>, random: &mut Random) -> File {
    let style = any_style(random);
    File {
        shape,
        source: write_out(lines, style, random),
        jets,
    }
}

/// How many lines a file gets: mostly few, sometimes as many as there is room for.
fn line_count(random: &mut Random) -> usize {
    match random.below(16) {
        0..=9 => random.between(1, 6),
        10..=14 => random.between(7, 30),
        _ => random.between(37, 340),
    }
}

/// How many tokens an expression gets, about: fewer where there are many lines.
fn expression_size(random: &mut Random, lines: usize) -> usize {
    match random.below(8) {
        _ if lines > 100 => random.between(1, 3),
        0..=3 => random.between(1, 3),
        4..=6 => random.between(3, 12),
        _ if lines > 6 => random.between(3, 12),
        _ => random.between(12, 60),
    }
}

/// Lines in which every name uses only names that come before it in some order.
fn sound_lines(random: &mut Random, list: &[u8]) -> Vec<Line> {
    let (count, known) = (line_count(random), jets::known(list));
    let names = names::distinct(random, count);
    let (mut lines, mut tokens) = (Vec::new(), 0);
    for (number, name) in names.iter().enumerate() {
        let choices = Choices {
            names: &names[..number],
            strangers: false,
            jets: &known,
        };
        let size = expression_size(random, count);
        let line = definition(name, expression(random, &choices, size, MOST_DEPTH));
        let line = perhaps_typed(random, line);
        let extra = perhaps_type_line(random, name);
        let added = line.len() + extra.as_ref().map_or(0, Vec::len);
        if tokens + added > MOST_TOKENS {
            break;
        }
        tokens += added;
        lines.push(line);
        lines.extend(extra);
    }
    reorder(random, &mut lines);
    lines
}

/// Lines whose names may be illegal, repeated or incomplete, with uses of any name.
fn unsound_lines(random: &mut Random, list: &[u8]) -> Vec<Line> {
    let (count, known) = (line_count(random), jets::known(list));
    let names = names::distinct(random, count);
    let choices = Choices {
        names: &names,
        strangers: true,
        jets: &known,
    };
    let (mut lines, mut tokens) = (Vec::new(), 0);
    for name in &names {
        let name = line_name(random, name, &names);
        let size = expression_size(random, count);
        let line = if random.chance(1, 8) {
            type_line(&name, arrow(random, Exponents::Good, 6))
        } else {
            let line = definition(&name, expression(random, &choices, size, MOST_DEPTH));
            perhaps_typed(random, line)
        };
        if tokens + line.len() > MOST_TOKENS {
            break;
        }
        tokens += line.len();
        lines.push(line);
    }
    lines
}

/// The line's own name, or one that is illegal, nearly so, or of another line.
fn line_name(random: &mut Random, own: &str, names: &[String]) -> String {
    match random.below(16) {
        0 => random.text(&ILLEGAL_NAMES),
        1 => random.text(&NEAR_NAMES),
        2..=3 => random.pick(names).clone(),
        _ => own.to_owned(),
    }
}

/// A line whose literals stand at the edge; refused ones are the fewer.
fn literal_line(random: &mut Random, name: &str) -> Line {
    let mut body = match random.below(6) {
        0..=3 => Vec::new(),
        4 => vec![
            "pair".to_owned(),
            "const".to_owned(),
            literals::word(random),
        ],
        _ => vec![
            "comp".to_owned(),
            "fail".to_owned(),
            literals::entropy(random),
        ],
    };
    if random.chance(1, 2) {
        body.push("const".to_owned());
        body.push(literals::word_at_edge(random));
    } else {
        body.push("fail".to_owned());
        body.push(literals::entropy_at_edge(random));
    }
    definition(name, body)
}

/// `name := body`.
pub(super) fn definition(name: &str, body: Line) -> Line {
    let mut line = vec![name.to_owned(), ":=".to_owned()];
    line.extend(body);
    line
}

/// `name : types`.
fn type_line(name: &str, types: Line) -> Line {
    typed(vec![name.to_owned()], types)
}

/// The line with `: types` after it.
fn typed(mut line: Line, types: Line) -> Line {
    line.push(":".to_owned());
    line.extend(types);
    line
}

fn perhaps_typed(random: &mut Random, line: Line) -> Line {
    if random.chance(1, 5) {
        let size = random.between(2, 14);
        typed(line, arrow(random, Exponents::Good, size))
    } else {
        line
    }
}

fn perhaps_type_line(random: &mut Random, name: &str) -> Option<Line> {
    random
        .chance(1, 8)
        .then(|| type_line(name, arrow(random, Exponents::Good, 6)))
}

/// Leaves the lines as they are, turns them round, or mixes them.
fn reorder(random: &mut Random, lines: &mut [Line]) {
    match random.below(3) {
        0 => {}
        1 => lines.reverse(),
        _ => random.shuffle(lines),
    }
}

//! The wrapper against the oracle: what it makes of the tables is what they must hold, and its listing is the whole text.

use crate::expected::{expected, listing, Expected, ERRORS, NAMES, WIDTHS};
use crate::generate::{damage_bytes, generate};
use crate::random::{mixed, Random};
use crate::scale::Scale;
use crate::tally::{answer, Tally};
use crate::zaghdurem::{self, Counts, Expression, ExpressionNumber, Line, Name, NameNumber, Node};
use crate::zaghdurem::{NodeNumber, Reading, Refusal, Tables, Token, Type, TypeNumber};

/// An error: its kind, its place and its name.
type ErrorRow = (u32, u32, Vec<u8>);

/// A reading as numbers and texts.
#[derive(Debug, Default, PartialEq, Eq)]
struct Told {
    /// Number, place and value.
    refusal: (u32, u32, u32),
    counts: [u32; 7],
    /// The words of tokens, lines, expressions, types, names and nodes.
    words: [Vec<u32>; 6],
    errors: Vec<ErrorRow>,
    /// The number of the name and of the node, and the text.
    roots: Vec<(u32, u32, Vec<u8>)>,
}

/// Compares readings and listings of generated files, whole and damaged.
pub fn compare(scale: &Scale, tally: &mut Tally) {
    let mut random = Random::new(mixed(scale.seed, 0x3A9));
    let mut tables = Tables::new();
    oracle::with_stack(|| {
        for _ in 0..scale.count / 2 {
            let mut file = generate(&mut random);
            if random.chance(1, 4) {
                damage_bytes(&mut file.source, &mut random);
            }
            compare_file(&file.source, &file.jets, &mut tables, tally);
        }
    });
}

fn compare_file(source: &[u8], jets: &[u8], tables: &mut Tables, tally: &mut Tally) {
    let wanted = expected(source, jets);
    let told = match zaghdurem::read(source, jets, tables) {
        Ok(reading) => told(source, reading),
        Err(refusal) => refused(&refusal),
    };
    tally.compare(
        source,
        || "the reading of the wrapper".to_owned(),
        answer("library", told),
        answer("oracle", must(source, &wanted)),
    );
    tally.compare(
        source,
        || "the listing of the wrapper".to_owned(),
        answer("library", zaghdurem::list(source, jets, tables)),
        answer("oracle", listing(source, &wanted).into_bytes()),
    );
}

fn refused(refusal: &Refusal) -> Told {
    Told {
        refusal: (refusal.reason.number(), refusal.place as u32, refusal.value),
        ..Told::default()
    }
}

/// Where a part of the source begins; 0 if it is empty.
fn start(source: &[u8], part: &[u8]) -> u32 {
    match part {
        [] => 0,
        part => (part.as_ptr() as usize - source.as_ptr() as usize) as u32,
    }
}

fn told(source: &[u8], reading: Reading<'_>) -> Told {
    let words = [
        reading.tokens().flat_map(of_token).collect(),
        reading.lines().flat_map(of_line).collect(),
        reading.expressions().flat_map(of_expression).collect(),
        reading.types().flat_map(of_type).collect(),
        reading
            .names()
            .flat_map(|name| of_name(source, name))
            .collect(),
        reading.nodes().flat_map(of_node).collect(),
    ];
    let errors = reading.errors();
    let roots = reading.roots();
    Told {
        refusal: (0, 0, 0),
        counts: counts(reading.counts()),
        words,
        errors: errors
            .map(|error| (error.kind.number(), error.start.0, error.name.to_vec()))
            .collect(),
        roots: roots
            .map(|root| (root.name.get(), root.node.get(), root.text.to_vec()))
            .collect(),
    }
}

fn of_token(token: Token) -> [u32; 3] {
    [token.kind.number(), token.span.start.0, token.span.len]
}

fn of_line(line: Line) -> [u32; 5] {
    let types = [line.source, line.target].map(|number| number.map_or(0, TypeNumber::get));
    let expression = line.expression.map_or(0, ExpressionNumber::get);
    [
        line.name.start.0,
        line.name.len,
        expression,
        types[0],
        types[1],
    ]
}

fn of_expression(e: Expression) -> [u32; 6] {
    let [left, right] = [e.left, e.right].map(|part| part.map_or(0, ExpressionNumber::get));
    [
        e.kind.number(),
        e.start.0,
        left,
        right,
        e.span.start.0,
        e.span.len,
    ]
}

fn of_type(ty: Type) -> [u32; 4] {
    match ty {
        Type::Name(span) => [1, span.start.0, span.len, 0],
        Type::One => [2, 0, 0, 0],
        Type::Two => [3, 0, 0, 0],
        Type::Product(left, right) => [4, left.get(), right.get(), 0],
        Type::Sum(left, right) => [5, left.get(), right.get(), 0],
        Type::Power(n) => [6, 0, 0, n],
    }
}

fn of_name(source: &[u8], name: Name<'_>) -> [u32; 4] {
    assert_eq!(name.start.0, start(source, name.text));
    let expression = name.expression.map_or(0, ExpressionNumber::get);
    let node = name.node.map_or(0, NodeNumber::get);
    [name.start.0, name.text.len() as u32, expression, node]
}

fn of_node(node: Node) -> [u32; 8] {
    let [left, right] = [node.left, node.right].map(|child| child.map_or(0, NodeNumber::get));
    [
        node.kind.number(),
        node.start.0,
        node.name.map_or(0, NameNumber::get),
        left,
        right,
        node.span.start.0,
        node.span.len,
        node.in_degree,
    ]
}

fn counts(counts: Counts) -> [u32; 7] {
    [
        counts.tokens,
        counts.lines,
        counts.expressions,
        counts.types,
        counts.names,
        counts.nodes,
        counts.errors,
    ]
}

/// What must be told.
fn must(source: &[u8], e: &Expected) -> Told {
    let part = |start: u32, len: u32| source[start as usize..][..len as usize].to_vec();
    let errors = e.tables[ERRORS].chunks_exact(WIDTHS[ERRORS]);
    let node = |name: u32| e.tables[NAMES][name as usize * WIDTHS[NAMES] - 1];
    let roots = e.roots.iter();
    Told {
        refusal: (e.no, e.place, e.value),
        counts: e.counts,
        words: std::array::from_fn(|table| e.tables[table].clone()),
        errors: errors
            .map(|error| (error[0], error[1], part(error[2], error[3])))
            .collect(),
        roots: roots
            .map(|root| {
                (
                    root.number,
                    node(root.number),
                    root.text.clone().into_bytes(),
                )
            })
            .collect(),
    }
}

#[cfg(test)]
mod tests {
    use super::*;

    #[test]
    fn the_wrapper_agrees() {
        let mut tally = Tally::default();
        let scale = Scale {
            quick: true,
            seed: 5,
            count: 400,
        };
        compare(&scale, &mut tally);
        assert_eq!((tally.comparisons, tally.smallest), (400, None));
    }
}

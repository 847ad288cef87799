//! The records of names, nodes and errors, made from what the oracle reads.

use std::collections::{HashMap, HashSet};

use oracle::{ErrorRow, Reading, Span};

use super::records::Records;
use super::{word, ERRORS, NAMES, NODES};

const MISSING: u32 = 1;
const NOEXPR: u32 = 2;

impl<'a> Records<'a> {
    /// The records of names; gives their numbers.
    pub fn names(
        &mut self,
        reading: &'a Reading,
        first: &HashMap<&str, u32>,
    ) -> HashMap<&'a str, u32> {
        let mut numbers = HashMap::new();
        for name in &reading.names {
            let expression = first.get(name.text.as_str()).copied().unwrap_or(0);
            let (start, len) = (word(name.span.start), word(name.span.len));
            let number = self.push(NAMES, &[start, len, expression, word(name.node)]);
            assert_eq!(self.text(name.span), name.text);
            assert!(numbers.insert(name.text.as_str(), number).is_none());
        }
        numbers
    }

    /// The records of nodes, by the numbers of names.
    pub fn nodes(&mut self, reading: &Reading, numbers: &HashMap<&str, u32>) {
        for node in &reading.nodes {
            let name = node.name.as_deref().map_or(0, |name| numbers[name]);
            self.push(
                NODES,
                &[
                    node.kind,
                    word(node.start),
                    name,
                    word(node.left),
                    word(node.right),
                    word(node.span.start),
                    word(node.span.len),
                    word(node.in_degree),
                ],
            );
        }
    }

    /// The errors of lines, in line order, each with that line's own name.
    pub fn line_errors(&mut self, reading: &Reading) {
        let mut lines = reading.lines.iter();
        for error in &reading.line_errors {
            let line = lines
                .find(|line| match error.kind {
                    1 => line.position.span().start == error.start,
                    _ => {
                        let expression = line.expression.as_ref();
                        expression.is_some_and(|e| e.position.span().start == error.start)
                    }
                })
                .expect("the line of an error");
            assert_eq!(line.name.as_ref(), error.name);
            let name = line.position.span();
            self.error(error.kind, error.start, name);
        }
    }

    /// One error for each missing or incomplete node, in node order, with that node's span.
    pub fn node_errors(&mut self, reading: &Reading) {
        let mut of_nodes = HashSet::new();
        for node in &reading.nodes {
            let kind = match node.kind {
                MISSING => 3,
                NOEXPR => 4,
                _ => continue,
            };
            self.error(kind, node.start, node.span);
            of_nodes.insert(ErrorRow {
                kind,
                start: node.start,
                name: self.text(node.span).to_owned(),
            });
        }
        // the Rust reports the same ones, for each root
        let reported: HashSet<ErrorRow> = reading.step3_errors.iter().cloned().collect();
        assert_eq!(reported, of_nodes);
    }

    fn error(&mut self, kind: u32, start: usize, name: Span) {
        self.push(
            ERRORS,
            &[kind, word(start), word(name.start), word(name.len)],
        );
    }
}

#[cfg(test)]
mod tests {
    use crate::expected::*;
    use crate::generate::generate;
    use crate::random::Random;

    #[test]
    fn errors_of_nodes_stand_behind_those_of_lines() {
        let mut random = Random::new(29);
        let mut both = 0;
        oracle::with_stack(|| {
            for _ in 0..600 {
                let file = generate(&mut random);
                let whole = whole_with(&file.source, &Jets::new(&file.jets));
                let (e, text) = (whole.expected, file.source.escape_ascii());
                assert_eq!(whole.types.len(), e.counts[NAMES] as usize, "{text}");
                let rows = e.tables[ERRORS].chunks(WIDTHS[ERRORS]);
                let kinds: Vec<u32> = rows.map(|row| row[0]).collect();
                assert!(kinds.is_sorted_by_key(|&kind| kind > 2), "{text}");
                let nodes = e.tables[NODES].chunks(WIDTHS[NODES]);
                let faults = nodes.map(|node| node[0]).filter(|kind| *kind <= 2);
                let faults: Vec<u32> = faults.map(|kind| kind + 2).collect();
                assert!(kinds.ends_with(&faults), "{text}");
                both += usize::from(!faults.is_empty() && faults.len() < kinds.len());
            }
        });
        assert!(both > 0);
    }

    #[test]
    fn types_of_names() {
        let source =
            "a : 1 -> _ a := b : x -> 2 a := unit : 2 -> 1 prim : 1 -> 1 c : _ -> _ b := c";
        let jets = Jets::new(b"");
        let types = oracle::with_stack(|| whole_with(source.as_bytes(), &jets)).types;
        let a = UserTypes {
            source: vec![Type::One, Type::Name("x".to_owned()), Type::Two],
            target: vec![Type::Two, Type::One],
        };
        assert_eq!(types, [a, UserTypes::default(), UserTypes::default()]);
    }
}

//! Names, nodes and errors by a recursive walk over the records of lines and expressions, written from the rules
//! page; with a mistake, if one is asked for. Test code.

use super::mistakes::Mistake;
use crate::expected::{Expected, EXPRESSIONS, LINES, WIDTHS};

const MISSING: u32 = 1;
const NOEXPR: u32 = 2;
const REFERENCE: u32 = 3;
const ASSERTL: u32 = 4;
const HOLE: u32 = 17;

/// A name, and how far the walk has come with it: its node is 0 until it is finished.
#[derive(Clone, Copy)]
struct Name {
    start: u32,
    len: u32,
    expression: u32,
    node: u32,
    begun: bool,
}

struct Walk<'a> {
    mistake: Mistake,
    source: &'a [u8],
    expressions: Vec<&'a [u32]>,
    names: Vec<Name>,
    nodes: Vec<[u32; 8]>,
    errors: Vec<[u32; 4]>,
}

impl Walk<'_> {
    fn text(&self, start: u32, len: u32) -> &[u8] {
        &self.source[start as usize..][..len as usize]
    }

    fn illegal(&self, text: &[u8]) -> bool {
        match self.mistake {
            Mistake::OnlyPrimIsIllegal => text == b"_" || text == b"prim",
            Mistake::IllegalNameIsFound => text == b"_",
            _ => text == b"_" || text.starts_with(b"prim"),
        }
    }

    /// The index of the name with this text.
    fn find(&self, start: u32, len: u32) -> Option<usize> {
        let text = self.text(start, len);
        self.names.iter().position(|name| {
            let known = self.text(name.start, name.len);
            match self.mistake {
                Mistake::NamesByPrefix => text.starts_with(known),
                _ => text == known,
            }
        })
    }

    /// Step 1: one line more.
    fn line(&mut self, line: &[u32]) {
        let [start, len, expression] = [line[0], line[1], line[2]];
        if self.illegal(self.text(start, len)) {
            self.errors.push([1, start, start, len]);
            return;
        }
        let Some(index) = self.find(start, len) else {
            if expression != 0 || self.mistake != Mistake::TypeLineIsNoName {
                self.names.push(Name {
                    start,
                    len,
                    expression,
                    node: 0,
                    begun: false,
                });
            }
            return;
        };
        let known = self.names[index].expression;
        if expression != 0 && known != 0 {
            let place = match self.mistake {
                Mistake::RepeatedAtName => start,
                _ => self.expressions[expression as usize - 1][1],
            };
            self.errors.push([2, place, start, len]);
        }
        if known == 0 || (expression != 0 && self.mistake == Mistake::LastExpressionCounts) {
            self.names[index].expression = expression;
        }
    }

    /// Step 2: all names, each not yet begun.
    fn all_names(&mut self) {
        let mut order: Vec<usize> = (0..self.names.len()).collect();
        if self.mistake == Mistake::NamesBackwards {
            order.reverse();
        }
        for index in order {
            if !self.names[index].begun {
                self.finish(index);
            }
        }
        for index in 0..self.nodes.len() {
            let counts = |node: &[u32; 8]| {
                node[0] != REFERENCE || self.mistake != Mistake::ReferencesDoNotCount
            };
            let children = self.nodes.iter().filter(|node| counts(node));
            let children = children.flat_map(|node| [node[3], node[4]]);
            let degree = children.filter(|&child| child == index as u32 + 1).count();
            self.nodes[index][7] = degree as u32;
        }
    }

    /// One error for each missing or incomplete node, in node order.
    fn node_errors(&mut self) {
        for node in &self.nodes {
            let kind = match (node[0], self.mistake) {
                (MISSING, _) => 3,
                (NOEXPR, Mistake::IncompleteIsMissing) => 3,
                (NOEXPR, _) => 4,
                _ => continue,
            };
            self.errors.push([kind, node[1], node[5], node[6]]);
        }
        if self.mistake == Mistake::ErrorsByPlace {
            self.errors.sort_by_key(|error| error[1]);
        }
    }

    fn finish(&mut self, index: usize) {
        self.names[index].begun = true;
        let Name {
            start,
            len,
            expression,
            ..
        } = self.names[index];
        let number = index as u32 + 1;
        self.names[index].node = match expression {
            0 => self.push([NOEXPR, start, number, 0, 0, start, len, 0]),
            _ => self.node(expression, Some((start, number))),
        };
    }

    fn push(&mut self, node: [u32; 8]) -> u32 {
        self.nodes.push(node);
        self.nodes.len() as u32
    }

    /// The number of an expression's node; `outermost` is the place and the number of its name.
    fn node(&mut self, expression: u32, outermost: Option<(u32, u32)>) -> u32 {
        let &[kind, own, left, right, start, len] = self.expressions[expression as usize - 1]
        else {
            unreachable!("an expression has six words")
        };
        let (mut place, name) = outermost.unwrap_or((own, 0));
        let is_use = kind == REFERENCE || (kind == HOLE && self.mistake == Mistake::HoleIsUse);
        if is_use {
            if self.mistake == Mistake::PlaceAtReference {
                place = own;
            }
            let (kind, node) = self.referent(kind, start, len);
            return self.push([kind, place, name, node, 0, start, len, 0]);
        }
        let in_cmr = kind == ASSERTL && self.mistake == Mistake::UsesInCmrLeftOut;
        let (left, right) = match self.mistake {
            Mistake::LeftChildFirst => {
                let left = self.child(left);
                (left, self.child(right))
            }
            _ => {
                let right = if in_cmr { 0 } else { self.child(right) };
                (self.child(left), right)
            }
        };
        let lost = [4, 5].contains(&kind) && self.mistake == Mistake::LiteralCmrLost;
        let (start, len) = if lost { (0, 0) } else { (start, len) };
        self.push([kind, place, name, left, right, start, len, 0])
    }

    /// The node of a child, 0 for none.
    fn child(&mut self, expression: u32) -> u32 {
        match expression {
            0 => 0,
            _ => self.node(expression, None),
        }
    }

    /// What a use becomes: its kind and the node it stands for.
    fn referent(&mut self, kind: u32, start: u32, len: u32) -> (u32, u32) {
        let Some(index) = self.find(start, len) else {
            return (if kind == HOLE { HOLE } else { MISSING }, 0);
        };
        if !self.names[index].begun {
            self.finish(index);
        }
        match self.names[index].node {
            0 => (MISSING, 0),
            node => (REFERENCE, node),
        }
    }
}

/// The seven tables, by a walk over what the parser gives.
pub fn resolved(source: &[u8], parsed: &Expected, mistake: Mistake) -> Expected {
    let records = |table: usize| parsed.tables[table].chunks_exact(WIDTHS[table]);
    let mut walk = Walk {
        mistake,
        source,
        expressions: records(EXPRESSIONS).collect(),
        names: Vec::new(),
        nodes: Vec::new(),
        errors: Vec::new(),
    };
    records(LINES).for_each(|line| walk.line(line));
    walk.all_names();
    if mistake != Mistake::ErrorsOfNodesLeftOut {
        walk.node_errors();
    }
    let name = |name: &Name| [name.start, name.len, name.expression, name.node];
    let names = walk.names.iter().flat_map(name).collect();
    let [tokens, mut lines, expressions, types, ..] = parsed.tables.clone();
    if mistake == Mistake::TypesSwapped {
        lines.chunks_exact_mut(5).for_each(|line| line.swap(3, 4));
    }
    let [nodes, errors] = [walk.nodes.concat(), walk.errors.concat()];
    let tables = [tokens, lines, expressions, types, names, nodes, errors];
    let count = |table: usize| (tables[table].len() / WIDTHS[table]) as u32;
    let mut counts = std::array::from_fn(count);
    counts[5] += u32::from(mistake == Mistake::CountOfNodes);
    Expected {
        counts,
        tables,
        ..parsed.clone()
    }
}

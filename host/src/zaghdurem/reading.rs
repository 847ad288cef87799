//! What is read from a source: its names, nodes, roots and errors, and what they come from.

use super::tables::{Tables, ERRORS, EXPRESSIONS, LINES, NAMES, NODES, TOKENS, TYPES};
use super::{calls, ByteOffset, ErrorKind, Expression, ExpressionNumber, Line, NameNumber};
use super::{NodeKind, NodeNumber, Position, Span, Token, Type, TypeNumber};
use crate::ffi::Read;

/// How many records each table has.
#[derive(Clone, Copy, Debug, PartialEq, Eq)]
pub struct Counts {
    pub tokens: u32,
    pub lines: u32,
    pub expressions: u32,
    pub types: u32,
    pub names: u32,
    pub nodes: u32,
    pub errors: u32,
}

/// A source that was read, with the tables that hold what was read.
#[derive(Clone, Copy, Debug)]
pub struct Reading<'a> {
    source: &'a [u8],
    tables: &'a Tables,
    counts: Counts,
}

/// A name that has a legal line.
#[derive(Clone, Copy, Debug, PartialEq, Eq)]
pub struct Name<'a> {
    pub number: NameNumber,
    /// The part of the source where it first stands.
    pub text: &'a [u8],
    pub start: ByteOffset,
    /// Its first expression; None if it has none.
    pub expression: Option<ExpressionNumber>,
    pub node: Option<NodeNumber>,
}

/// A node; its children have smaller numbers.
#[derive(Clone, Copy, Debug, PartialEq, Eq)]
pub struct Node {
    pub number: NodeNumber,
    pub kind: NodeKind,
    pub start: ByteOffset,
    /// The name whose outermost node this is.
    pub name: Option<NameNumber>,
    pub left: Option<NodeNumber>,
    pub right: Option<NodeNumber>,
    /// The literal, literal CMR, jet, name used, hole's name or incomplete name.
    pub span: Span,
    /// How often it stands as a child.
    pub in_degree: u32,
}

/// A named node that stands nowhere as a child.
#[derive(Clone, Copy, Debug, PartialEq, Eq)]
pub struct Root<'a> {
    pub name: NameNumber,
    pub node: NodeNumber,
    /// The name's text, as the part of the source where it stands.
    pub text: &'a [u8],
}

/// An error, with the name that it is about.
#[derive(Clone, Copy, Debug, PartialEq, Eq)]
pub struct Error<'a> {
    pub kind: ErrorKind,
    pub start: ByteOffset,
    pub name: &'a [u8],
}

impl<'a> Reading<'a> {
    pub(super) fn new(source: &'a [u8], tables: &'a Tables, row: &Read) -> Self {
        let counts = Counts {
            tokens: row.tokens,
            lines: row.lines,
            expressions: row.expressions,
            types: row.types,
            names: row.names,
            nodes: row.nodes,
            errors: row.errors,
        };
        Reading {
            source,
            tables,
            counts,
        }
    }

    pub fn counts(&self) -> Counts {
        self.counts
    }

    pub fn tokens(self) -> impl Iterator<Item = Token> + use<'a> {
        self.records(TOKENS, self.counts.tokens).map(Token::of)
    }

    pub fn lines(self) -> impl Iterator<Item = Line> + use<'a> {
        self.records(LINES, self.counts.lines).map(Line::of)
    }

    /// The expressions, parts before wholes.
    pub fn expressions(self) -> impl Iterator<Item = Expression> + use<'a> {
        let count = self.counts.expressions;
        self.records(EXPRESSIONS, count).map(Expression::of)
    }

    /// An expression by its number; None if there is none of this number.
    pub fn expression(&self, number: ExpressionNumber) -> Option<Expression> {
        let words = self.record(EXPRESSIONS, self.counts.expressions, number.get())?;
        Some(Expression::of(words))
    }

    /// The types, operands before operators.
    pub fn types(self) -> impl Iterator<Item = Type> + use<'a> {
        self.records(TYPES, self.counts.types).map(Type::of)
    }

    /// A type by its number; None if there is none of this number.
    pub fn type_of(&self, number: TypeNumber) -> Option<Type> {
        let words = self.record(TYPES, self.counts.types, number.get())?;
        Some(Type::of(words))
    }

    /// The names, in the order of their first legal lines.
    pub fn names(self) -> impl Iterator<Item = Name<'a>> {
        (1..=self.counts.names)
            .filter_map(NameNumber::new)
            .filter_map(move |number| self.name(number))
    }

    /// A name by its number; None if there is none of this number.
    pub fn name(&self, number: NameNumber) -> Option<Name<'a>> {
        let words = self.record(NAMES, self.counts.names, number.get())?;
        Some(Name {
            number,
            text: self.name_text(number),
            start: ByteOffset(words[0]),
            expression: ExpressionNumber::new(words[2]),
            node: NodeNumber::new(words[3]),
        })
    }

    /// The nodes, children before parents.
    pub fn nodes(self) -> impl Iterator<Item = Node> + use<'a> {
        (1..=self.counts.nodes)
            .filter_map(NodeNumber::new)
            .filter_map(move |number| self.node(number))
    }

    /// A node by its number; None if there is none of this number.
    pub fn node(&self, number: NodeNumber) -> Option<Node> {
        let words = self.record(NODES, self.counts.nodes, number.get())?;
        Some(Node {
            number,
            kind: NodeKind::of(words[0]).expect("a kind of nodes"),
            start: ByteOffset(words[1]),
            name: NameNumber::new(words[2]),
            left: NodeNumber::new(words[3]),
            right: NodeNumber::new(words[4]),
            span: Span::new(words[5], words[6]),
            in_degree: words[7],
        })
    }

    /// The roots, in the order of names.
    pub fn roots(self) -> impl Iterator<Item = Root<'a>> {
        let first = self.next_root(0);
        let chain = std::iter::successors(first, move |root| self.next_root(root.get()));
        chain.map(move |name| {
            let known = self.name(name).and_then(|known| known.node);
            Root {
                name,
                node: known.expect("a root has a node"),
                text: self.name_text(name),
            }
        })
    }

    fn next_root(&self, after: u32) -> Option<NameNumber> {
        let (names, nodes) = (self.tables.words(NAMES), self.tables.words(NODES));
        let next = calls::next_root(names, self.counts.names, nodes, self.counts.nodes, after);
        NameNumber::new(next)
    }

    /// The errors of lines, in line order, then those of nodes, in node order.
    pub fn errors(self) -> impl Iterator<Item = Error<'a>> {
        let records = self.records(ERRORS, self.counts.errors);
        records.map(move |words| Error {
            kind: ErrorKind::of(words[0]).expect("a kind of errors"),
            start: ByteOffset(words[1]),
            name: self.text(Span::new(words[2], words[3])),
        })
    }

    /// The text of a name, as the part of the source where it stands.
    pub fn name_text(&self, name: NameNumber) -> &'a [u8] {
        let (names, count) = (self.tables.words(NAMES), self.counts.names);
        self.part(calls::name_text(self.source, names, count, name.get()))
    }

    /// The text of a span, as that part of the source; empty if it does not lie inside.
    pub fn text(&self, span: Span) -> &'a [u8] {
        self.part(calls::span_text(self.source, span.start.0, span.len))
    }

    /// Byte `index` (from 0) of a `const` or `fail` literal; 0 past its last byte, and if the span is no literal.
    pub fn literal_byte(&self, literal: Span, index: u32) -> u8 {
        let byte = calls::literal_byte(self.source, literal.start.0, literal.len, index);
        u8::try_from(byte).expect("a byte of a literal is below 256")
    }

    /// Line and column of a place.
    pub fn position(&self, offset: ByteOffset) -> Position {
        super::position(self.source, offset)
    }

    fn part(&self, span: crate::ffi::Span) -> &'a [u8] {
        &self.source[span.start as usize..][..span.len as usize]
    }

    /// The words of the records of a table that has `count` of them.
    fn records(self, table: usize, count: u32) -> impl Iterator<Item = &'a [u32]> {
        (1..=count).filter_map(move |number| self.tables.record(table, number))
    }

    /// The words of one of them.
    fn record(&self, table: usize, count: u32, number: u32) -> Option<&'a [u32]> {
        let known = (number <= count).then_some(number)?;
        self.tables.record(table, known)
    }
}

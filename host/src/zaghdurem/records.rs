//! The records of tokens, lines, expressions and types.

use super::{ByteOffset, ExpressionNumber, NodeKind, Span, TokenKind, TypeNumber};

/// A token and where it stands.
#[derive(Clone, Copy, Debug, PartialEq, Eq)]
pub struct Token {
    pub kind: TokenKind,
    pub span: Span,
}

/// A line: its name, its expression and the types of its arrow, if it has them.
#[derive(Clone, Copy, Debug, PartialEq, Eq)]
pub struct Line {
    pub name: Span,
    pub expression: Option<ExpressionNumber>,
    pub source: Option<TypeNumber>,
    pub target: Option<TypeNumber>,
}

/// An expression; its parts have smaller numbers. Its kind is never `Missing` or `NoExpr`.
#[derive(Clone, Copy, Debug, PartialEq, Eq)]
pub struct Expression {
    pub kind: NodeKind,
    pub start: ByteOffset,
    pub left: Option<ExpressionNumber>,
    pub right: Option<ExpressionNumber>,
    /// The literal, literal CMR, jet, name used or hole's name.
    pub span: Span,
}

/// A type; its operands have smaller numbers.
#[derive(Clone, Copy, Debug, PartialEq, Eq)]
pub enum Type {
    Name(Span),
    One,
    Two,
    Product(TypeNumber, TypeNumber),
    Sum(TypeNumber, TypeNumber),
    /// 2^(2^n).
    Power(u32),
}

impl Token {
    pub(super) fn of(words: &[u32]) -> Self {
        Token {
            kind: TokenKind::of(words[0]).expect("a kind of tokens"),
            span: Span::new(words[1], words[2]),
        }
    }
}

impl Line {
    pub(super) fn of(words: &[u32]) -> Self {
        Line {
            name: Span::new(words[0], words[1]),
            expression: ExpressionNumber::new(words[2]),
            source: TypeNumber::new(words[3]),
            target: TypeNumber::new(words[4]),
        }
    }
}

impl Expression {
    pub(super) fn of(words: &[u32]) -> Self {
        Expression {
            kind: NodeKind::of(words[0]).expect("a kind of expressions"),
            start: ByteOffset(words[1]),
            left: ExpressionNumber::new(words[2]),
            right: ExpressionNumber::new(words[3]),
            span: Span::new(words[4], words[5]),
        }
    }
}

impl Type {
    pub(super) fn of(words: &[u32]) -> Self {
        let operand = |number: u32| TypeNumber::new(number).expect("an operand");
        match words[0] {
            1 => Type::Name(Span::new(words[1], words[2])),
            2 => Type::One,
            3 => Type::Two,
            4 => Type::Product(operand(words[1]), operand(words[2])),
            5 => Type::Sum(operand(words[1]), operand(words[2])),
            6 => Type::Power(words[3]),
            kind => unreachable!("no kind of types: {kind}"),
        }
    }
}

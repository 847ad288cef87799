//! The records of tokens, lines, expressions and types, made from what the oracle reads.

use std::collections::HashMap;

use oracle::ast::{AstCmr, ExprInner, Expression, Line, Type};
use oracle::human_encoding::WitnessOrHole;
use oracle::node::Inner;
use oracle::{Span, Token};

use super::{word, EXPRESSIONS, LINES, TOKENS, TYPES, WIDTHS};
use crate::depth::kind::*;

/// The tables of a source while they are filled.
pub struct Records<'a> {
    source: &'a [u8],
    tokens: &'a [Token],
    tables: [Vec<u32>; 7],
}

impl<'a> Records<'a> {
    /// The records of tokens, lines, expressions and types, and the number of the first expression under each name.
    pub fn of_lines(
        source: &'a [u8],
        tokens: &'a [Token],
        lines: &'a [Line],
    ) -> (Self, HashMap<&'a str, u32>) {
        let mut records = Records {
            source,
            tokens,
            tables: Default::default(),
        };
        for token in tokens {
            records.push(TOKENS, &[token.kind, word(token.start), word(token.len)]);
        }
        let first = records.lines(lines);
        (records, first)
    }

    /// The words of the tables' records.
    pub fn into_tables(self) -> [Vec<u32>; 7] {
        self.tables
    }

    /// Puts a record behind the others of its table, and gives its number.
    pub(super) fn push(&mut self, table: usize, record: &[u32]) -> u32 {
        assert_eq!(record.len(), WIDTHS[table]);
        self.tables[table].extend(record);
        word(self.tables[table].len() / WIDTHS[table])
    }

    pub(super) fn text(&self, span: Span) -> &'a str {
        let bytes = &self.source[span.start..span.start + span.len];
        std::str::from_utf8(bytes).expect("a span of tokens")
    }

    /// The records of lines, and with each line's the expression's and the types'. Gives the number of the first
    /// expression under each name.
    fn lines(&mut self, lines: &'a [Line]) -> HashMap<&'a str, u32> {
        let mut first = HashMap::new();
        let mut at = 0;
        for (index, line) in lines.iter().enumerate() {
            let name = line.position.span();
            let end = lines.get(index + 1).map(|next| next.position.span().start);
            assert_eq!(self.tokens[at].start, name.start);
            let expression = match &line.expression {
                None => 0,
                Some(expression) => self.expression(expression),
            };
            if expression != 0 {
                first.entry(line.name.as_ref()).or_insert(expression);
            }

            at += 1;
            let (source_type, target_type) = self.arrow(&mut at, end);
            self.same_type(source_type, line.arrow.0.as_ref());
            self.same_type(target_type, line.arrow.1.as_ref());

            let (start, len) = (word(name.start), word(name.len));
            self.push(LINES, &[start, len, expression, source_type, target_type]);
        }
        assert_eq!(at, self.tokens.len());
        first
    }

    /// The numbers of a line's types; the next line begins at the offset `end`. Only an arrow stands behind `:`.
    fn arrow(&mut self, at: &mut usize, end: Option<usize>) -> (u32, u32) {
        let more = |token: &Token| end.is_none_or(|end| token.start < end);
        let rest = self.tokens[*at..].iter().take_while(|token| more(token));
        *at += rest.take_while(|token| token.kind != COLON).count();
        if !self.tokens.get(*at).is_some_and(more) {
            return (0, 0);
        }
        *at += 1;
        let source_type = self.ty(at);
        assert_eq!(self.tokens[*at].kind, ARROW);
        *at += 1;
        (source_type, self.ty(at))
    }

    /// An expression's number; its children are recorded before it, the left one first.
    fn expression(&mut self, expression: &Expression) -> u32 {
        let none = Span::default();
        let (kind, left, right, span) = match &expression.inner {
            ExprInner::Reference(_, span) => (3, 0, 0, *span),
            ExprInner::AssertL(child, cmr) => {
                let left = self.expression(child);
                let (right, span) = self.cmr(cmr);
                (4, left, right, span)
            }
            ExprInner::AssertR(cmr, child) => {
                let (left, span) = self.cmr(cmr);
                (5, left, self.expression(child), span)
            }
            ExprInner::Inline(inner) => match inner {
                Inner::Iden => (6, 0, 0, none),
                Inner::Unit => (7, 0, 0, none),
                Inner::InjL(child) => (8, self.expression(child), 0, none),
                Inner::InjR(child) => (9, self.expression(child), 0, none),
                Inner::Take(child) => (10, self.expression(child), 0, none),
                Inner::Drop(child) => (11, self.expression(child), 0, none),
                Inner::Comp(l, r) => (12, self.expression(l), self.expression(r), none),
                Inner::Case(l, r) => (13, self.expression(l), self.expression(r), none),
                Inner::Pair(l, r) => (14, self.expression(l), self.expression(r), none),
                Inner::Disconnect(l, r) => (15, self.expression(l), self.expression(r), none),
                Inner::Witness(WitnessOrHole::Witness) => (16, 0, 0, none),
                Inner::Witness(WitnessOrHole::TypedHole(_, span)) => (17, 0, 0, *span),
                Inner::Fail(entropy) => (18, 0, 0, entropy.span()),
                Inner::Jet(jet) => (19, 0, 0, jet.span),
                Inner::Word(literal) => (20, 0, 0, literal.span()),
                Inner::AssertL(..) | Inner::AssertR(..) => unreachable!(),
            },
        };
        let start = word(expression.position.span().start);
        let (span_start, span_len) = (word(span.start), word(span.len));
        self.push(
            EXPRESSIONS,
            &[kind, start, left, right, span_start, span_len],
        )
    }

    /// The number of a CMR's expression, or its literal's span.
    fn cmr(&mut self, cmr: &AstCmr) -> (u32, Span) {
        match cmr {
            AstCmr::Expr(expression) => (self.expression(expression), Span::default()),
            AstCmr::Literal(span) => (0, *span),
        }
    }

    /// The number of the type that begins at a token, 0 if it is absent. The Rust's trees do not hold what stands beside
    /// an absent operand, so the tokens are read.
    fn ty(&mut self, at: &mut usize) -> u32 {
        let mut left = self.atom(at);
        loop {
            let kind = match self.tokens.get(*at).map(|token| token.kind) {
                Some(STAR) => 4,
                Some(PLUS) => 5,
                _ => return left,
            };
            *at += 1;
            let right = self.atom(at);
            left = match (left, right) {
                (0, _) | (_, 0) => 0,
                _ => self.push(TYPES, &[kind, left, right, 0]),
            };
        }
    }

    fn atom(&mut self, at: &mut usize) -> u32 {
        let token = self.tokens[*at];
        *at += 1;
        match token.kind {
            UNDERSCORE => 0,
            SYMBOL => self.push(TYPES, &[1, word(token.start), word(token.len), 0]),
            ONE => self.push(TYPES, &[2, 0, 0, 0]),
            TWO => self.push(TYPES, &[3, 0, 0, 0]),
            POWER => {
                let (start, len) = (token.start + 2, token.len - 2);
                let exponent: u32 = self.text(Span { start, len }).parse().expect("a number");
                assert!(exponent.is_power_of_two());
                match exponent.trailing_zeros() {
                    0 => self.push(TYPES, &[3, 0, 0, 0]),
                    n => self.push(TYPES, &[6, 0, 0, n]),
                }
            }
            LPAREN => {
                let number = self.ty(at);
                assert_eq!(self.tokens[*at].kind, RPAREN);
                *at += 1;
                number
            }
            kind => panic!("a token of kind {kind} begins no type"),
        }
    }

    /// The recorded type is the Rust's.
    fn same_type(&self, number: u32, tree: Option<&Type>) {
        let Some(tree) = tree else {
            assert_eq!(number, 0);
            return;
        };
        let index = (number as usize).checked_sub(1).expect("a type");
        let record: [u32; 4] = self.tables[TYPES][index * 4..][..4].try_into().unwrap();
        match tree {
            Type::Name(name) => {
                let [kind, start, len, n] = record;
                let (start, len) = (start as usize, len as usize);
                assert_eq!((kind, n), (1, 0));
                assert_eq!(self.text(Span { start, len }), name);
            }
            Type::One => assert_eq!(record, [2, 0, 0, 0]),
            Type::Two => assert_eq!(record, [3, 0, 0, 0]),
            Type::Product(left, right) | Type::Sum(left, right) => {
                let operator = if matches!(tree, Type::Product(..)) {
                    4
                } else {
                    5
                };
                assert_eq!((record[0], record[3]), (operator, 0));
                self.same_type(record[1], Some(left));
                self.same_type(record[2], Some(right));
            }
            Type::TwoTwoN(n) => assert_eq!(record, [6, 0, 0, *n]),
        }
    }
}

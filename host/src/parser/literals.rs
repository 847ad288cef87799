//! Bytes of literals: those of the literals that the Rust reads, and at any span against the reference.

use std::sync::Arc;

use oracle::ast::{AstCmr, ExprInner, Expression, Line};
use oracle::dag::Dag;
use oracle::node::Inner;
use oracle::Span;

use super::{reference, Comparison};
use crate::generate::{byte_soup, generate, literal_edges, token_soup};
use crate::library;
use crate::random::Random;
use crate::run::Piece;
use crate::tally::{answer, Tally};

/// Literals of up to so many bytes are asked about at every index.
const EVERY_INDEX: usize = 256;

/// How many indexes of a longer literal are asked about at its front, at its end, and about how many between them.
const SAMPLE: usize = 40;

/// Indexes past the end of any literal; eight, four or two times some of them wraps round.
const FAR: [u32; 6] = [1 << 20, 1 << 29, 1 << 30, 1 << 31, u32::MAX - 1, u32::MAX];

/// Letters that tell literals from other texts, the last one of one byte that is no character.
const LETTERS: &[u8] = b"0bx1fF \xff";

/// Spans asked about for each source.
const SPANS: usize = 12;

/// Compares the bytes of every `const` and `fail` literal of some lines with the Rust's.
pub fn of_lines(source: &[u8], lines: &[Line], tally: &mut Tally) {
    for line in lines {
        if let Some(expression) = &line.expression {
            of_expression(source, expression, tally);
        }
    }
}

fn of_expression(source: &[u8], expression: &Expression, tally: &mut Tally) {
    match &expression.inner {
        ExprInner::Reference(..) => {}
        ExprInner::AssertL(child, cmr) | ExprInner::AssertR(cmr, child) => {
            of_expression(source, child, tally);
            if let AstCmr::Expr(child) = cmr {
                of_expression(source, child, tally);
            }
        }
        ExprInner::Inline(Inner::Word(word)) => {
            of_literal(source, word.span(), word.word_bytes(), tally);
        }
        ExprInner::Inline(Inner::Fail(entropy)) => {
            of_literal(source, entropy.span(), entropy.entropy_bytes(), tally);
        }
        ExprInner::Inline(inner) => of_children(source, inner, tally),
    }
}

fn of_children<W>(
    source: &[u8],
    inner: &Inner<Arc<Expression>, Arc<Expression>, W>,
    tally: &mut Tally,
) {
    match inner.as_dag() {
        Dag::Nullary => {}
        Dag::Unary(child) => of_expression(source, child, tally),
        Dag::Binary(left, right) => {
            of_expression(source, left, tally);
            of_expression(source, right, tally);
        }
    }
}

/// Compares the bytes of one literal, and those past its last one.
fn of_literal(source: &[u8], span: Span, bytes: &[u8], tally: &mut Tally) {
    let (start, len) = (span.start as u32, span.len as u32);
    for index in indexes(bytes.len()) {
        let told = library::literal_byte(source, start, len, index);
        let byte = bytes.get(index as usize).copied().unwrap_or(0);
        tally.compare(
            source,
            || format!("byte {index} of the literal at {start}, of {len} bytes"),
            answer("library", told),
            answer("oracle", u32::from(byte)),
        );
    }
}

/// The indexes asked about: all of a short literal, some of a long one, and some past the last.
fn indexes(count: usize) -> Vec<u32> {
    let mut indexes: Vec<usize> = if count <= EVERY_INDEX {
        (0..count).collect()
    } else {
        let between = (SAMPLE..count - SAMPLE).step_by(count / SAMPLE);
        (0..SAMPLE)
            .chain(between)
            .chain(count - SAMPLE..count)
            .collect()
    };
    indexes.extend([count, count + 1, count + 64]);
    indexes
        .into_iter()
        .map(|index| index as u32)
        .chain(FAR)
        .collect()
}

/// Compares a byte at a span of any source with the reference.
fn at_span(source: &[u8], (start, len): (u32, u32), index: u32, tally: &mut Tally) {
    tally.compare(
        source,
        || format!("byte {index} of the span at {start}, of {len} bytes"),
        answer("library", library::literal_byte(source, start, len, index)),
        answer(
            "reference",
            reference::literal_byte(source, start, len, index),
        ),
    );
}

/// Every span of all short texts over telling letters, and spans that reach past their end.
pub fn spans_of_short_texts(piece: &Piece, comparison: &mut Comparison) {
    let most = if piece.scale.quick { 4 } else { 5 };
    for length in 0..=most {
        for number in (0..LETTERS.len().pow(length)).filter(|&number| piece.takes(number)) {
            let letter = |place: u32| LETTERS[number / LETTERS.len().pow(place) % LETTERS.len()];
            let source: Vec<u8> = (0..length).map(letter).collect();
            for start in 0..=length + 1 {
                for len in 0..=length + 1 {
                    at_span(&source, (start, len), 0, &mut comparison.bytes);
                }
                // with the start these make the lengths of the texts when the sum wraps round
                for end in 0..=length {
                    let len = end.wrapping_sub(start + 1);
                    at_span(&source, (start + 1, len), 0, &mut comparison.bytes);
                }
            }
            at_span(&source, (0, length), 1, &mut comparison.bytes);
        }
    }
}

/// Spans of generated sources and soups, on literals, about them and anywhere.
pub fn any_spans(piece: &Piece, comparison: &mut Comparison) {
    let mut random = Random::new(piece.seed(0x11B));
    for _ in 0..piece.share(piece.scale.count) {
        let source = match random.below(8) {
            0..=3 => literal_edges(&mut random).source,
            4 => byte_soup(&mut random).source,
            5 => token_soup(&mut random).source,
            _ => generate(&mut random).source,
        };
        for _ in 0..SPANS {
            let span = any_span(&source, &mut random);
            let index = match random.below(8) {
                0..=5 => random.below(span.1.min(4_000) as usize / 2 + 2) as u32,
                6 => random.below(70) as u32,
                _ => *random.pick(&FAR),
            };
            at_span(&source, span, index, &mut comparison.bytes);
        }
    }
}

/// A span that begins at a digit 0, at the end or anywhere, and ends where a literal does, a byte off, or anywhere.
fn any_span(source: &[u8], random: &mut Random) -> (u32, u32) {
    let from = random.below(source.len() + 1);
    let zero = source[from..].iter().position(|&byte| byte == b'0');
    let start = match random.below(16) {
        0..=11 => from + zero.unwrap_or(0),
        12 => from,
        13 => source.len().saturating_sub(random.below(4)),
        14 => source.len() + random.below(3),
        _ => random.number() as u32 as usize,
    };
    let rest = source.get(start..).unwrap_or_default();
    let digits = rest
        .iter()
        .take_while(|byte| byte.is_ascii_alphanumeric())
        .count();
    let len = match random.below(16) {
        0..=7 => digits as u32,
        8..=9 => (digits + random.below(3)).saturating_sub(1) as u32,
        10..=12 => random.below(digits + 2) as u32,
        13 => rest.len() as u32 + random.below(2) as u32,
        14 => (random.below(source.len() + 1) as u32).wrapping_sub(start as u32),
        _ => random.number() as u32,
    };
    (start as u32, len)
}

#[cfg(test)]
mod tests {
    use super::*;

    #[test]
    fn short_literals_are_asked_about_at_every_index_and_past_the_end() {
        let asked = indexes(64);
        assert!((0..=65).all(|index| asked.contains(&index)));
        assert!(asked.contains(&u32::MAX));
        let asked = indexes(4096);
        assert!([0, 39, 4056, 4095, 4096]
            .iter()
            .all(|index| asked.contains(index)));
        assert!(asked.len() < 140);
    }

    #[test]
    fn the_reference_packs_as_the_rust_does() {
        let mut random = Random::new(9);
        let mut literals = 0;
        oracle::with_stack(|| {
            for _ in 0..1000 {
                let file = literal_edges(&mut random);
                let (_, lines) =
                    crate::expected::parsed_with(&file.source, &oracle::Jets::new(b""));
                for line in &lines {
                    let inner = &line.expression.as_ref().unwrap().inner;
                    let (span, bytes) = match inner {
                        ExprInner::Inline(Inner::Word(word)) => (word.span(), word.word_bytes()),
                        ExprInner::Inline(Inner::Fail(fail)) => {
                            (fail.span(), &fail.entropy_bytes()[..])
                        }
                        _ => continue,
                    };
                    literals += 1;
                    let (start, len) = (span.start as u32, span.len as u32);
                    for (index, &byte) in (0..).zip(bytes.iter().chain(&[0])) {
                        let packed = reference::literal_byte(&file.source, start, len, index);
                        assert_eq!(packed, u32::from(byte));
                    }
                }
            }
        });
        assert!(literals > 100, "{literals}");
    }

    #[test]
    fn spans_fall_on_literals_and_beside_them() {
        let mut random = Random::new(4);
        let source = b"a := const 0x12 b := fail 0b1";
        let spans: Vec<(u32, u32)> = (0..2000).map(|_| any_span(source, &mut random)).collect();
        for wanted in [(11, 4), (11, 3), (11, 5), (26, 3), (26, 4)] {
            assert!(spans.contains(&wanted), "{wanted:?}");
        }
        assert!(spans
            .iter()
            .any(|&(start, len)| start.checked_add(len).is_none()));
        assert!(spans
            .iter()
            .any(|&(start, _)| start as usize > source.len()));
    }
}

//! Spans of any source, and bytes of literals at them.

use super::{inputs, reference};
use crate::guarded::{Against, Guarded};
use crate::library;
use crate::parser::reference::literal_byte;
use crate::random::{mixed, Random};
use crate::scale::Scale;
use crate::tables::RULES;
use crate::tally::{answer, Tally};

/// How many spans are asked about for each source.
const SPANS: usize = 12;

/// Sources of up to so many bytes have all their spans asked about.
const SHORT: usize = 40;

/// Bytes of which literals are made, and some that are in none.
const DIGITS: &[u8] = b"0123456789abcdef01010101010101010101010101xF \xff";

fn compare_span(source: &[u8], (start, len): (u32, u32), tally: &mut Tally) {
    tally.compare(
        source,
        || format!("the part at {start}, of {len} bytes"),
        answer("library", library::span_text(source, start, len)),
        answer("reference", reference::span_text(source.len(), start, len)),
    );
}

/// Every span that begins and ends in a short source or just behind it, and those whose sum wraps to such an end.
pub fn short_spans(_: &Scale, tally: &mut Tally) {
    let mut memory = Guarded::new(SHORT);
    for length in 0..=SHORT {
        for against in [Against::Front, Against::Rear] {
            let source = memory.hold_bytes(&[b'a'; SHORT][..length], against);
            let last = length as u32 + 2;
            for start in 0..=last {
                for end in 0..=last {
                    compare_span(source, (start, end.wrapping_sub(start)), tally);
                    compare_span(source, (start, end), tally);
                }
            }
        }
    }
}

/// Spans of sources of any length.
pub fn any_spans(scale: &Scale, tally: &mut Tally) {
    let mut random = Random::new(mixed(scale.seed, 0xACC3));
    let most = RULES.source_bytes as usize + 8;
    let (mut memory, bytes) = (Guarded::new(most), vec![b'a'; most]);
    for _ in 0..scale.count {
        let length = match random.below(4) {
            0 => most - random.below(12),
            1 => random.below(most),
            _ => random.below(20),
        };
        let source = memory.hold_bytes(&bytes[..length], inputs::against(&mut random));
        for _ in 0..SPANS {
            let span = any_span(length, &mut random);
            compare_span(source, span, tally);
        }
    }
}

/// A span about a source's end, in it, or anywhere.
fn any_span(length: usize, random: &mut Random) -> (u32, u32) {
    let start = inputs::number(length, random);
    let len = match random.below(3) {
        0 => inputs::number(length, random).wrapping_sub(start),
        1 => (length as u32).wrapping_sub(start),
        _ => inputs::number(length, random),
    };
    (start, len)
}

/// Bytes of literals at any spans of short sources, most of them on a literal or about it.
pub fn literals(scale: &Scale, tally: &mut Tally) {
    let mut random = Random::new(mixed(scale.seed, 0xACC4));
    let mut memory = Guarded::new(SHORT);
    for _ in 0..scale.count {
        let (source, literal) = with_literal(&mut random);
        let source = memory.hold_bytes(&source, inputs::against(&mut random));
        for _ in 0..SPANS {
            let (start, len) = match random.below(8) {
                0..=3 => literal,
                4 => (literal.0, literal.1 + 1),
                5 => (literal.0, literal.1.saturating_sub(1)),
                _ => any_span(source.len(), &mut random),
            };
            let index = inputs::number(len.min(9) as usize / 2, &mut random);
            tally.compare(
                source,
                || format!("byte {index} of the span at {start}, of {len} bytes"),
                answer("library", library::literal_byte(source, start, len, index)),
                answer("reference", literal_byte(source, start, len, index)),
            );
        }
    }
}

/// A source of what may be one literal with other bytes before and behind it, and that literal's span.
fn with_literal(random: &mut Random) -> (Vec<u8>, (u32, u32)) {
    let [before, digits, behind] = [4, 20, 4].map(|most| {
        let count = random.below(most);
        let digit = |_| DIGITS[random.below(DIGITS.len())];
        (0..count).map(digit).collect::<Vec<u8>>()
    });
    let (base, digits) = match random.chance(1, 2) {
        true => (b"0x", digits),
        false => (b"0b", digits.iter().map(|digit| b'0' + digit % 2).collect()),
    };
    let span = (before.len() as u32, 2 + digits.len() as u32);
    ([&before, &base[..], &digits, &behind].concat(), span)
}

#[cfg(test)]
mod tests {
    use super::*;

    #[test]
    fn spans_and_literals_agree() {
        let scale = Scale {
            quick: true,
            seed: 1,
            count: 300,
        };
        for compare in [short_spans, any_spans, literals] {
            let mut tally = Tally::default();
            compare(&scale, &mut tally);
            assert!(tally.comparisons >= 300 * SPANS as u64);
            assert_eq!(tally.smallest, None);
        }
    }

    #[test]
    fn there_are_literals_to_find() {
        let (mut random, mut found) = (Random::new(1), 0);
        for _ in 0..400 {
            let (source, (start, len)) = with_literal(&mut random);
            assert!(source.len() < SHORT);
            found += usize::from(literal_byte(&source, start, len, 0) != 0);
        }
        assert!((100..390).contains(&found), "{found}");
    }
}

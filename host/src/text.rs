//! The text check and the places, against `std` and the Rust's `offset_to_position`.

mod inputs;
mod reference;

pub use inputs::PARTS;

use crate::generate::Shape;
use crate::library::{self, Position, Refusal};
use crate::random::Random;
use crate::shrink::shrink;
use crate::tally::{answer, Answer, Disagreement, Tally};
use reference::Positions;

/// Texts up to this length are asked about at every offset.
const EVERY_OFFSET: usize = 200;

/// How many offsets a longer text is asked about for each kind of telling place.
const SAMPLE: usize = 12;

/// What is compared about texts.
#[derive(Default)]
pub struct Tallies {
    /// The library with `std`, with the Rust, and on ill-formed bytes with the reference.
    pub library: Tally,
    /// The reference for positions with the Rust, on valid text.
    pub reference: Tally,
    /// How many files of each family were made, in the order of `Shape::ALL`.
    pub files: [u64; Shape::ALL.len()],
}

/// Compares every answer about one text.
pub fn compare_text(source: &[u8], random: &mut Random, tallies: &mut Tallies) {
    compare_check(source, &mut tallies.library);
    let positions = Positions::of(source);
    let valid = std::str::from_utf8(source).ok();
    for offset in offsets(source, random) {
        let told = answer("library", library::offset_to_position(source, offset));
        let counted = answer("reference", positions.at(offset));
        let question = || format!("position of offset {offset}");
        if let Some(text) = valid {
            tallies
                .library
                .compare(source, question, told, by_the_rust(text, offset));
            tallies
                .reference
                .compare(source, question, counted, by_the_rust(text, offset));
        } else {
            tallies.library.compare(source, question, told, counted);
        }
    }
}

/// Makes the smallest input on which the library disagrees smaller still.
pub fn shrink_disagreement(tally: &mut Tally) {
    let Some(found) = &tally.smallest else { return };
    let shorter = shrink(&found.input, |input| about(input).is_some());
    tally.smallest = about(&shorter).or_else(|| tally.smallest.take());
}

/// What the library disagrees on about one text.
fn about(source: &[u8]) -> Option<Disagreement> {
    let mut tallies = Tallies::default();
    compare_text(source, &mut Random::new(0), &mut tallies);
    tallies.library.smallest
}

fn by_the_rust(text: &str, offset: usize) -> Answer<Position> {
    let (line, column) = oracle::offset_to_position(text, offset);
    answer("offset_to_position", Position { line, column })
}

/// Compares the text check: the whole row, and so the place of the first ill-formed sequence.
fn compare_check(source: &[u8], tally: &mut Tally) {
    let expected = match std::str::from_utf8(source) {
        Ok(_) => Refusal {
            no: 0,
            value: 0,
            place: 0,
        },
        Err(error) => Refusal {
            no: 3,
            value: 0,
            place: error.valid_up_to(),
        },
    };
    tally.compare(
        source,
        || "check of the text".to_owned(),
        answer("library", library::check_text_row(source)),
        answer("std::str::from_utf8", expected),
    );
}

/// The offsets at which a text is asked about: all of a short one, telling ones of a
/// long one, and in any case some past the end.
fn offsets(source: &[u8], random: &mut Random) -> Vec<usize> {
    let length = source.len();
    let mut offsets: Vec<usize> = if length <= EVERY_OFFSET {
        (0..=length).collect()
    } else {
        telling_offsets(source, random)
    };
    offsets.extend([length + 1, length + 2, usize::MAX]);
    offsets
}

/// Both ends, and places about line feeds, long characters and anywhere.
fn telling_offsets(source: &[u8], random: &mut Random) -> Vec<usize> {
    let mut offsets: Vec<usize> = (0..=8).chain(source.len() - 8..=source.len()).collect();
    for wanted in [is_line_feed, is_long_start, is_any] {
        for _ in 0..SAMPLE {
            let from = random.below(source.len());
            if let Some(found) = source[from..].iter().position(|&byte| wanted(byte)) {
                let middle = from + found;
                offsets.extend(middle.saturating_sub(1)..=(middle + 4).min(source.len()));
            }
        }
    }
    offsets.sort();
    offsets.dedup();
    offsets
}

fn is_line_feed(byte: u8) -> bool {
    byte == b'\n'
}

fn is_long_start(byte: u8) -> bool {
    byte >= 0xC0
}

fn is_any(_: u8) -> bool {
    true
}

#[cfg(test)]
mod tests {
    use super::offsets;
    use crate::random::Random;

    #[test]
    fn short_texts_are_asked_about_at_every_offset() {
        let asked = offsets(b"abc", &mut Random::new(1));
        assert_eq!(asked, [0, 1, 2, 3, 4, 5, usize::MAX]);
    }

    #[test]
    fn long_texts_are_asked_about_at_both_ends() {
        let text = vec![b'a'; 5000];
        let asked = offsets(&text, &mut Random::new(1));
        assert!([0, 1, 4999, 5000, 5001, 5002, usize::MAX]
            .iter()
            .all(|offset| asked.contains(offset)));
    }
}

//! Line and column as the rules page words them, for any bytes.

use crate::library::Position;

/// The positions of all offsets of a text, found in one pass.
pub struct Positions {
    /// One for each offset from 0 to the text's length.
    all: Vec<Position>,
}

impl Positions {
    /// A character begins at every byte outside 128 to 191, and LF starts a line.
    pub fn of(source: &[u8]) -> Self {
        let mut here = Position { line: 1, column: 1 };
        let mut all = Vec::with_capacity(source.len() + 1);
        all.push(here);
        for &byte in source {
            if byte == b'\n' {
                here = Position {
                    line: here.line + 1,
                    column: 1,
                };
            } else if !(128..=191).contains(&byte) {
                here.column += 1;
            }
            all.push(here);
        }
        Positions { all }
    }

    /// The position of an offset; one past the end counts as the end.
    pub fn at(&self, offset: usize) -> Position {
        self.all[offset.min(self.all.len() - 1)]
    }
}

#[cfg(test)]
mod tests {
    use super::Positions;

    fn at(source: &[u8], offset: usize) -> (usize, usize) {
        let position = Positions::of(source).at(offset);
        (position.line, position.column)
    }

    #[test]
    fn places_begin_at_line_one_column_one() {
        assert_eq!(at(b"", 0), (1, 1));
        assert_eq!(at(b"", 7), (1, 1));
        assert_eq!(at(b"a", 0), (1, 1));
    }

    #[test]
    fn a_line_feed_starts_a_line_and_a_carriage_return_does_not() {
        assert_eq!(at(b"ab\ncd", 2), (1, 3));
        assert_eq!(at(b"ab\ncd", 3), (2, 1));
        assert_eq!(at(b"ab\ncd", 4), (2, 2));
        assert_eq!(at(b"\n\n", 2), (3, 1));
        assert_eq!(at(b"a\r\nb", 2), (1, 3));
    }

    #[test]
    fn an_offset_past_the_end_counts_as_the_end() {
        assert_eq!(at(b"ab\ncd", 5), (2, 3));
        assert_eq!(at(b"ab\ncd", 6), (2, 3));
        assert_eq!(at(b"ab\ncd", usize::MAX), (2, 3));
    }

    #[test]
    fn a_long_character_counts_once_from_its_first_byte_on() {
        let text = "a\u{20ac}b".as_bytes();
        assert_eq!(at(text, 1), (1, 2));
        assert!((2..=4).all(|offset| at(text, offset) == (1, 3)));
        assert_eq!(at(text, 5), (1, 4));
    }

    #[test]
    fn ill_formed_bytes_count_by_the_same_rule() {
        assert_eq!(at(b"\x80\xbf", 2), (1, 1));
        assert_eq!(at(b"\xff\xfe", 2), (1, 3));
        assert_eq!(at(b"\xe2\n\x82", 3), (2, 1));
    }

    #[test]
    fn valid_text_has_the_positions_of_the_rust() {
        for text in [
            "",
            "a",
            "\n",
            "a\u{e9}\n\u{20ac}\u{1f980}\r\n.",
            "\u{feff}\n\n\u{7f}",
        ] {
            for offset in (0..text.len() + 3).chain([usize::MAX]) {
                assert_eq!(
                    at(text.as_bytes(), offset),
                    oracle::offset_to_position(text, offset)
                );
            }
        }
    }
}

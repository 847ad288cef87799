//! Listings: the text byte for byte, in outputs that hold it, hold it just so, and lack one byte.

use super::lent::{rule, TABLES};
use super::{parted, Asked, Comparison};
use crate::expected::{listing, Expected};
use crate::library::Listed;
use crate::tally::answer;
use crate::zaghdurem::LISTING_BYTES;

/// What is told about a call: its row, and the first word of the tables and the first byte of the output that are not as they
/// must be, with where they stand.
#[derive(Debug, PartialEq, Eq)]
struct Told {
    row: Listed,
    word: Option<(String, u32)>,
    byte: Option<(isize, u8)>,
}

impl Comparison {
    /// Compares the listing of a file in outputs of several lengths.
    pub(super) fn compare_listings(&mut self, asked: &Asked, lent: [usize; TABLES]) {
        let no = rule(&asked.whole.expected, lent).row.no;
        let text = match no {
            1 => listing(asked.source, &short_table()),
            _ => listing(asked.source, &asked.whole.expected),
        };
        let long = text.len();
        for room in [LISTING_BYTES, long, long - 1] {
            self.compare_listing(asked, lent, text.as_bytes(), room);
        }
    }

    /// Compares one call with an output of `room` bytes: its row, the whole output and the whole buffer after it.
    fn compare_listing(&mut self, asked: &Asked, lent: [usize; TABLES], text: &[u8], room: usize) {
        let (tables, out) = (self.buffer.lend(lent).into(), self.output.lend(room));
        let row = self
            .callee
            .list(asked.source, &asked.list.bytes, tables, out);
        let (listed, text) = if text.len() <= room {
            (1, text)
        } else {
            (0, &[][..])
        };
        let rule = rule(&asked.whole.expected, lent);
        let (word, must_word) = parted(self.buffer.first_difference(rule.tables));
        let (byte, must_byte) = parted(self.output.first_difference(text));
        let told = Told { row, word, byte };
        let wanted = Told {
            row: Listed {
                listed,
                len: text.len(),
            },
            word: must_word,
            byte: must_byte,
        };
        self.tallies.listings.compare(
            asked.source,
            || format!("listing into {room} bytes, {}", asked.question(lent)),
            answer("library", told),
            answer("oracle", wanted),
        );
    }
}

/// The answer if a table is too short.
fn short_table() -> Expected {
    Expected {
        no: 1,
        ..Expected::default()
    }
}

#[cfg(test)]
mod tests {
    use super::*;

    #[test]
    fn a_short_table_is_listed_as_refusal_1() {
        assert_eq!(listing(b"\xff", &short_table()), "refused 1 1:1\n");
    }
}

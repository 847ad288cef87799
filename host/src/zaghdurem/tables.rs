//! Tables that are long enough for any source.

use super::calls::Lent;

/// Each table has so many records.
const RECORDS: usize = 1_024;

// the tables of records, in their order; behind them comes work
pub(super) const TOKENS: usize = 0;
pub(super) const LINES: usize = 1;
pub(super) const EXPRESSIONS: usize = 2;
pub(super) const TYPES: usize = 3;
pub(super) const NAMES: usize = 4;
pub(super) const NODES: usize = 5;
pub(super) const ERRORS: usize = 6;

/// Words per record of each table.
pub(super) const WIDTHS: [usize; 8] = [3, 5, 6, 4, 4, 8, 4, 4];

/// The eight tables of a reading. They may serve one call after the other.
#[derive(Clone, Debug)]
pub struct Tables {
    /// In their order.
    words: [Vec<u32>; 8],
}

impl Tables {
    pub fn new() -> Self {
        Tables {
            words: WIDTHS.map(|width| vec![0; RECORDS * width]),
        }
    }

    pub(super) fn lend(&mut self) -> Lent<'_> {
        let tables = self.words.each_mut();
        tables.map(Vec::as_mut_slice).into()
    }

    /// The words of a table.
    pub(super) fn words(&self, table: usize) -> &[u32] {
        &self.words[table]
    }

    /// The words of a record, counted from 1.
    pub(super) fn record(&self, table: usize, number: u32) -> Option<&[u32]> {
        let index = usize::try_from(number).ok()?.checked_sub(1)?;
        self.words[table].chunks_exact(WIDTHS[table]).nth(index)
    }
}

impl Default for Tables {
    fn default() -> Self {
        Tables::new()
    }
}

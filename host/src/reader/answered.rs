//! The tables after a call that refused nothing, as they are; no word of them is believed.

use super::lent::{rule, TABLES, WORDS};
use crate::expected::{Expected, WIDTHS};
use crate::library::Read;

/// The source, the tables and the row of a call.
#[derive(Clone, Copy)]
pub struct Answered<'a> {
    pub source: &'a [u8],
    pub tables: [&'a [u32]; TABLES],
    pub row: Read,
}

impl<'a> Answered<'a> {
    /// The tables as they must be.
    pub fn expected(source: &'a [u8], e: &'a Expected) -> Self {
        let records = |table: usize| e.tables.get(table).map_or(&[][..], Vec::as_slice);
        Answered {
            source,
            tables: std::array::from_fn(records),
            row: rule(e, WORDS).row,
        }
    }

    /// The words of a record, counted from 1.
    pub fn record(&self, table: usize, number: u32) -> Option<&'a [u32]> {
        let index = (number as usize).checked_sub(1)?;
        self.tables[table].chunks_exact(WIDTHS[table]).nth(index)
    }

    /// The bytes at a span; None if it does not lie inside the source.
    pub fn bytes(&self, start: u32, len: u32) -> Option<&'a [u8]> {
        let (start, len) = (start as usize, len as usize);
        self.source.get(start..start.checked_add(len)?)
    }

    /// The text at a span.
    pub fn text(&self, start: u32, len: u32) -> Option<&'a str> {
        std::str::from_utf8(self.bytes(start, len)?).ok()
    }
}

//! The reader for a Rust program, as it is: safe, and nothing of the comparing runs is in it. Take this file, the folder
//! beside it and `ffi.rs`, and link the library.
//!
//! ```
//! # use zaghdurem_host::zaghdurem;
//! let mut tables = zaghdurem::Tables::new();
//! let reading = zaghdurem::read(b"main := unit", b"", &mut tables).expect("a program");
//! let roots: Vec<&[u8]> = reading.roots().map(|root| root.text).collect();
//! assert_eq!(roots, [b"main"]);
//! ```

pub mod calls;
mod kinds;
mod numbers;
mod reading;
mod records;
mod refusal;
mod tables;
#[cfg(test)]
mod tests;

pub use crate::ffi::Position;
pub use kinds::{ErrorKind, NodeKind, TokenKind};
pub use numbers::{ByteOffset, ExpressionNumber, NameNumber, NodeNumber, Span, TypeNumber};
pub use reading::{Counts, Error, Name, Node, Reading, Root};
pub use records::{Expression, Line, Token, Type};
pub use refusal::{Reason, Refusal};
pub use tables::Tables;

/// So many bytes hold the listing of any source.
pub const LISTING_BYTES: usize = 196_608;

/// Reads a source by a jet list, whose jets stand between newlines. What is read lies in the tables, which may serve another
/// call once the reading is dropped.
pub fn read<'a>(
    source: &'a [u8],
    jets: &[u8],
    tables: &'a mut Tables,
) -> Result<Reading<'a>, Refusal> {
    let row = calls::read(source, jets, tables.lend());
    match Refusal::of(&row) {
        Some(refusal) => Err(refusal),
        None => Ok(Reading::new(source, tables, &row)),
    }
}

/// The listing of a source: its nodes, roots and errors, or the row of its refusal.
pub fn list(source: &[u8], jets: &[u8], tables: &mut Tables) -> Vec<u8> {
    let mut text = vec![0; LISTING_BYTES];
    let len = list_into(source, jets, tables, &mut text);
    text.truncate(len.expect("there is room for any listing"));
    text
}

/// Writes the listing into a lent output and gives how many bytes it has. None if it has no room; then the output stays as it
/// is.
pub fn list_into(source: &[u8], jets: &[u8], tables: &mut Tables, out: &mut [u8]) -> Option<usize> {
    let row = calls::list(source, jets, tables.lend(), out);
    (row.listed == 1).then_some(row.len)
}

/// Line and column of an offset; one past the end counts as the end.
pub fn position(source: &[u8], offset: ByteOffset) -> Position {
    calls::offset_to_position(source, offset.0 as usize)
}

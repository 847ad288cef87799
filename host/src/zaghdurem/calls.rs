//! The C functions on slices and numbers: the one place where pointers are made for them.

use crate::ffi;
pub use crate::ffi::{Listed, Position, Read, Span};

/// The tables that a call is lent, each as long as it likes.
#[derive(Debug)]
pub struct Lent<'a> {
    pub tokens: &'a mut [u32],
    pub lines: &'a mut [u32],
    pub expressions: &'a mut [u32],
    pub types: &'a mut [u32],
    pub names: &'a mut [u32],
    pub nodes: &'a mut [u32],
    pub errors: &'a mut [u32],
    pub work: &'a mut [u32],
}

impl<'a> From<[&'a mut [u32]; 8]> for Lent<'a> {
    /// The tables in their order.
    fn from(tables: [&'a mut [u32]; 8]) -> Self {
        let [tokens, lines, expressions, types, names, nodes, errors, work] = tables;
        Lent {
            tokens,
            lines,
            expressions,
            types,
            names,
            nodes,
            errors,
            work,
        }
    }
}

/// Writes the source's tokens, lines, expressions, types, names, nodes and errors into lent tables and gives their numbers; the
/// first 1,024 records not used become zeros, all of them on refusals 2 to 13 and those of `work` always. Refusal 1, a table
/// too short, leaves the tables as they are.
pub fn read(source: &[u8], jets: &[u8], tables: Lent<'_>) -> Read {
    // SAFETY: each pointer and length are those of one slice; source and jets are only read, and
    // the eight tables are this call's alone and lie apart.
    unsafe {
        ffi::zaghdurem_read(
            source.as_ptr(),
            source.len(),
            jets.as_ptr(),
            jets.len(),
            tables.tokens.as_mut_ptr(),
            tables.tokens.len(),
            tables.lines.as_mut_ptr(),
            tables.lines.len(),
            tables.expressions.as_mut_ptr(),
            tables.expressions.len(),
            tables.types.as_mut_ptr(),
            tables.types.len(),
            tables.names.as_mut_ptr(),
            tables.names.len(),
            tables.nodes.as_mut_ptr(),
            tables.nodes.len(),
            tables.errors.as_mut_ptr(),
            tables.errors.len(),
            tables.work.as_mut_ptr(),
            tables.work.len(),
        )
    }
}

/// Reads as [`read`] does and writes the listing into `out`; if it has no room, `out` stays as it is.
pub fn list(source: &[u8], jets: &[u8], tables: Lent<'_>, out: &mut [u8]) -> Listed {
    // SAFETY: each pointer and length are those of one slice; source and jets are only read, and
    // the eight tables and the output are this call's alone and lie apart.
    unsafe {
        ffi::zaghdurem_list(
            source.as_ptr(),
            source.len(),
            jets.as_ptr(),
            jets.len(),
            tables.tokens.as_mut_ptr(),
            tables.tokens.len(),
            tables.lines.as_mut_ptr(),
            tables.lines.len(),
            tables.expressions.as_mut_ptr(),
            tables.expressions.len(),
            tables.types.as_mut_ptr(),
            tables.types.len(),
            tables.names.as_mut_ptr(),
            tables.names.len(),
            tables.nodes.as_mut_ptr(),
            tables.nodes.len(),
            tables.errors.as_mut_ptr(),
            tables.errors.len(),
            tables.work.as_mut_ptr(),
            tables.work.len(),
            out.as_mut_ptr(),
            out.len(),
        )
    }
}

/// The first root behind the name `after` (0 to begin), as a number of a name; 0 if there is none.
pub fn next_root(
    names: &[u32],
    name_count: u32,
    nodes: &[u32],
    node_count: u32,
    after: u32,
) -> u32 {
    let (name_words, node_words) = (names.len(), nodes.len());
    // SAFETY: each pointer and length are those of one slice, which is only read.
    unsafe {
        ffi::zaghdurem_next_root(
            names.as_ptr(),
            name_words,
            name_count,
            nodes.as_ptr(),
            node_words,
            node_count,
            after,
        )
    }
}

/// Where the text of a name of a table of `count` names stands; 0, 0 if there is none.
pub fn name_text(source: &[u8], names: &[u32], count: u32, number: u32) -> Span {
    let (table, words) = (names.as_ptr(), names.len());
    // SAFETY: each pointer and length are those of one slice, which is only read.
    unsafe { ffi::zaghdurem_name_text(source.as_ptr(), source.len(), table, words, count, number) }
}

/// The span itself if it lies inside the source, else 0, 0.
pub fn span_text(source: &[u8], start: u32, len: u32) -> Span {
    // SAFETY: pointer and length are those of one slice, which is only read.
    unsafe { ffi::zaghdurem_span_text(source.as_ptr(), source.len(), start, len) }
}

/// Byte `index` (from 0) of the literal at a span: 0 past its last byte, and where no literal stands.
pub fn literal_byte(source: &[u8], start: u32, len: u32, index: u32) -> u32 {
    // SAFETY: pointer and length are those of one slice, which is only read.
    unsafe { ffi::zaghdurem_literal_byte(source.as_ptr(), source.len(), start, len, index) }
}

/// Line and column of a byte offset, in any bytes. An offset past the end counts as the end.
pub fn offset_to_position(source: &[u8], offset: usize) -> Position {
    // SAFETY: pointer and length are those of one slice, which is only read.
    unsafe { ffi::zaghdurem_offset_to_position(source.as_ptr(), source.len(), offset) }
}

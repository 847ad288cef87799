//! What is compared with the oracle: the library, or in tests another reader.

use crate::library::{self, Lent, Listed, Read, Span};

/// The functions of a reader, as the header has them.
pub trait Callee: Sync {
    fn read(&self, source: &[u8], jets: &[u8], tables: Lent<'_>) -> Read;

    fn list(&self, source: &[u8], jets: &[u8], tables: Lent<'_>, out: &mut [u8]) -> Listed;

    /// `after` is the number of a name; the names and nodes come with how many there are.
    fn next_root(&self, names: (&[u32], u32), nodes: (&[u32], u32), after: u32) -> u32;

    /// The names come with how many there are.
    fn name_text(&self, source: &[u8], names: (&[u32], u32), number: u32) -> Span;
}

/// The library itself.
pub struct Library;

impl Callee for Library {
    fn read(&self, source: &[u8], jets: &[u8], tables: Lent<'_>) -> Read {
        library::read(source, jets, tables)
    }

    fn list(&self, source: &[u8], jets: &[u8], tables: Lent<'_>, out: &mut [u8]) -> Listed {
        library::list(source, jets, tables, out)
    }

    fn next_root(&self, names: (&[u32], u32), nodes: (&[u32], u32), after: u32) -> u32 {
        library::next_root(names.0, names.1, nodes.0, nodes.1, after)
    }

    fn name_text(&self, source: &[u8], names: (&[u32], u32), number: u32) -> Span {
        library::name_text(source, names.0, names.1, number)
    }
}

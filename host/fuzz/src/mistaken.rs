//! The library with a mistake, to show that the fuzzer finds one.

use zaghdurem_host::library::{Lent, Listed, Read, Span};
use zaghdurem_host::reader::{Callee, Library};

/// The library, but `read` counts one error too few in a source of six names with two errors, which is rare and stands in
/// no seed.
pub struct Mistaken;

impl Callee for Mistaken {
    fn read(&self, source: &[u8], jets: &[u8], tables: Lent<'_>) -> Read {
        let mut row = Library.read(source, jets, tables);
        if (row.names, row.errors) == (6, 2) {
            row.errors -= 1;
        }
        row
    }

    fn list(&self, source: &[u8], jets: &[u8], tables: Lent<'_>, out: &mut [u8]) -> Listed {
        Library.list(source, jets, tables, out)
    }

    fn next_root(&self, names: (&[u32], u32), nodes: (&[u32], u32), after: u32) -> u32 {
        Library.next_root(names, nodes, after)
    }

    fn name_text(&self, source: &[u8], names: (&[u32], u32), number: u32) -> Span {
        Library.name_text(source, names, number)
    }
}

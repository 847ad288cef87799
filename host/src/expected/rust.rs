//! The Rust's own answer about a source that is read, in the form that the Rust gives it.

use std::collections::BTreeSet;

use oracle::ast::{Line, Type};
use oracle::{ErrorRow, Reading};

/// What the Rust's `parse` gives, of errors and roots both.
#[derive(Clone, Debug, PartialEq, Eq)]
pub struct Rust {
    /// The names in step 3's map of roots.
    pub roots: BTreeSet<String>,
    /// All errors, in the order in which the `ErrorSet` hands them out.
    pub reported: Vec<ErrorRow>,
    /// How many types the trees of all lines hold.
    pub types: usize,
}

impl Rust {
    pub(super) fn of(reading: &Reading) -> Self {
        let kept = reading.roots.iter().filter(|root| !root.dropped);
        Rust {
            roots: kept.map(|root| root.name.clone()).collect(),
            reported: reading.reported.clone(),
            types: reading.lines.iter().map(types_of_line).sum(),
        }
    }
}

fn types_of_line(line: &Line) -> usize {
    let (source, target) = &line.arrow;
    [source, target].into_iter().flatten().map(size).sum()
}

/// How many types a tree holds, itself and all its operands.
fn size(tree: &Type) -> usize {
    match tree {
        Type::Name(_) | Type::One | Type::Two | Type::TwoTwoN(_) => 1,
        Type::Product(left, right) | Type::Sum(left, right) => 1 + size(left) + size(right),
    }
}

#[cfg(test)]
mod tests {
    use super::Rust;
    use crate::expected::whole_with;

    fn rust(source: &str) -> Rust {
        oracle::with_stack(|| whole_with(source.as_bytes(), &oracle::Jets::new(b"")))
            .rust
            .expect("a source that is read")
    }

    #[test]
    fn a_root_with_a_part_missing_is_not_in_the_map() {
        let rust = rust("a := unit b := c b := a prim := a d := pair c x c := x");
        assert_eq!(rust.roots.iter().collect::<Vec<_>>(), ["a"]);
        let kinds: Vec<u32> = rust.reported.iter().map(|row| row.kind).collect();
        // c's missing node is there for b and for d
        assert_eq!(kinds, [2, 1, 3, 3, 3]);
    }

    #[test]
    fn types_beside_an_absent_operand_are_in_no_tree() {
        assert_eq!(rust("a : 1 + 2 -> 1 * _").types, 3);
    }
}

//! The types that count for each name, by the rule, from the words of the library's own tables: the present types of all
//! legal lines of the name, in line order, those of repeated lines too, source and target apart.

use std::collections::HashMap;

use super::answered::Answered;
use crate::expected::{UserTypes, LINES, NAMES, TYPES};
use oracle::ast::Type;

impl Answered<'_> {
    /// The types of each name, in the order of names. None if a record is no line, type or name.
    pub fn user_types(&self) -> Option<Vec<UserTypes>> {
        let mut of_lines: HashMap<&[u8], UserTypes> = HashMap::new();
        for number in 1..=self.row.lines {
            let &[start, len, _, source, target] = self.record(LINES, number)? else {
                return None;
            };
            let name = self.bytes(start, len)?;
            if name == b"_" || name.starts_with(b"prim") {
                continue;
            }
            let types = of_lines.entry(name).or_default();
            if source != 0 {
                types.source.push(self.ty(source)?);
            }
            if target != 0 {
                types.target.push(self.ty(target)?);
            }
        }
        let names = (1..=self.row.names).map(|number| {
            let &[start, len, ..] = self.record(NAMES, number)? else {
                return None;
            };
            // a name of the table has a legal line
            of_lines.get(self.bytes(start, len)?).cloned()
        });
        names.collect()
    }

    /// The tree of a type by its number.
    fn ty(&self, number: u32) -> Option<Type> {
        // an operand stands before its operator, so this ends whatever the records are
        let operand = |operand: u32| {
            let before = operand < number;
            before.then(|| self.ty(operand)).flatten().map(Box::new)
        };
        match *self.record(TYPES, number)? {
            [1, start, len, 0] => Some(Type::Name(self.text(start, len)?.to_owned())),
            [2, 0, 0, 0] => Some(Type::One),
            [3, 0, 0, 0] => Some(Type::Two),
            [4, left, right, 0] => Some(Type::Product(operand(left)?, operand(right)?)),
            [5, left, right, 0] => Some(Type::Sum(operand(left)?, operand(right)?)),
            [6, 0, 0, n] => Some(Type::TwoTwoN(n)),
            _ => None,
        }
    }
}

#[cfg(test)]
mod tests {
    use super::*;
    use crate::expected::{whole_with, Expected, WIDTHS};

    const SOURCE: &str =
        "a : 1 -> _ a := unit : x + 2^8 * 1 -> 2 a := iden : 2 -> 1 prim : 1 -> 1 \
        _ : 2 -> 2 ab : (1 + _) * 2 -> 2^1 b := unit";

    fn expected() -> (Expected, Vec<UserTypes>) {
        let jets = oracle::Jets::new(b"");
        let whole = oracle::with_stack(|| whole_with(SOURCE.as_bytes(), &jets));
        (whole.expected, whole.types)
    }

    fn types(e: &Expected) -> Option<Vec<UserTypes>> {
        Answered::expected(SOURCE.as_bytes(), e).user_types()
    }

    #[test]
    fn types_are_those_of_all_legal_lines() {
        let (e, wanted) = expected();
        assert_eq!(types(&e).as_ref(), Some(&wanted));
        let counts = wanted.iter().map(|t| (t.source.len(), t.target.len()));
        assert_eq!(counts.collect::<Vec<_>>(), [(3, 2), (0, 1), (0, 0)]);
    }

    #[test]
    fn a_changed_word_changes_the_types_or_leaves_none() {
        // of lines the name and both types, of types all words, of names the name
        for (table, words) in [
            (LINES, &[0, 1, 3, 4][..]),
            (TYPES, &[0, 1, 2, 3]),
            (NAMES, &[0, 1]),
        ] {
            let (e, wanted) = expected();
            // the first two lines, and the types of the second
            for word in words.iter().flat_map(|word| [*word, word + WIDTHS[table]]) {
                let mut other = e.clone();
                other.tables[table][word] ^= 64;
                assert_ne!(types(&other), Some(wanted.clone()), "{table} {word}");
            }
        }
    }

    #[test]
    fn records_that_lead_round_have_no_types() {
        let (mut e, _) = expected();
        let sum = e.tables[TYPES]
            .chunks(4)
            .position(|row| row[0] == 5)
            .unwrap();
        e.tables[TYPES][sum * 4 + 1] = sum as u32 + 1;
        assert_eq!(types(&e), None);
    }
}

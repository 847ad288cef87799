//! Types and arrows.

use super::vocabulary::{BAD_EXPONENTS, GOOD_EXPONENTS, NAMES, NEAR_NAMES};
use super::Line;
use crate::random::Random;

/// Whether the types of a file keep to what is accepted.
#[derive(Clone, Copy, Debug, PartialEq, Eq)]
pub enum Exponents {
    Good,
    Any,
}

/// An arrow of about `size` tokens.
pub fn arrow(random: &mut Random, exponents: Exponents, size: usize) -> Line {
    let mut writer = Writer {
        random,
        exponents,
        out: Vec::new(),
    };
    writer.chain(size / 2, 8);
    writer.put("->");
    writer.chain(size / 2, 8);
    writer.out
}

struct Writer<'a> {
    random: &'a mut Random,
    exponents: Exponents,
    out: Line,
}

impl Writer<'_> {
    fn put(&mut self, token: &str) {
        self.out.push(token.to_owned());
    }

    /// Atoms joined by operators, of about `size` tokens.
    fn chain(&mut self, size: usize, depth: usize) {
        let mut left = size;
        loop {
            left = left.saturating_sub(self.atom(left, depth));
            if left < 2 {
                return;
            }
            let operator = *self.random.pick(&["+", "*"]);
            self.put(operator);
            left -= 1;
        }
    }

    /// An atom; answers how many tokens it has.
    fn atom(&mut self, size: usize, depth: usize) -> usize {
        let before = self.out.len();
        if size >= 3 && depth > 1 && self.random.chance(1, 3) {
            let inside = self.random.between(1, size - 2);
            self.put("(");
            self.chain(inside, depth - 1);
            self.put(")");
        } else {
            let token = self.single();
            self.out.push(token);
        }
        self.out.len() - before
    }

    fn single(&mut self) -> String {
        match self.random.below(16) {
            0..=3 => "1".to_owned(),
            4..=6 => "2".to_owned(),
            7 => "_".to_owned(),
            8..=10 => self.random.text(&NAMES),
            11 => self.random.text(&NEAR_NAMES),
            _ => self.power(),
        }
    }

    fn power(&mut self) -> String {
        if self.exponents == Exponents::Any && self.random.chance(1, 4) {
            format!("2^{}", self.random.pick(&BAD_EXPONENTS))
        } else {
            format!("2^{}", self.random.pick(&GOOD_EXPONENTS))
        }
    }
}

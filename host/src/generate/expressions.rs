//! Expressions of all kinds.

use super::{literals, names, Line};
use crate::random::Random;

/// What an expression may be made of.
pub struct Choices<'a> {
    /// The names that references use.
    pub names: &'a [String],
    /// Whether references use names without a legal line too.
    pub strangers: bool,
    /// The jet tokens.
    pub jets: &'a [String],
}

/// An expression of about `size` tokens, at most `depth` deep.
pub fn expression(random: &mut Random, choices: &Choices, size: usize, depth: usize) -> Line {
    let mut writer = Writer {
        random,
        choices,
        out: Vec::new(),
    };
    writer.expression(size, depth);
    writer.out
}

struct Writer<'a, 'b> {
    random: &'a mut Random,
    choices: &'a Choices<'b>,
    out: Line,
}

impl Writer<'_, '_> {
    fn put(&mut self, token: &str) {
        self.out.push(token.to_owned());
    }

    fn expression(&mut self, size: usize, depth: usize) {
        if size < 2 || depth < 2 {
            return self.leaf();
        }
        match self.random.below(12) {
            0 => self.parentheses(size, depth),
            1..=4 => self.unary(size, depth),
            5..=9 => self.binary(size, depth),
            10 => self.assertl(size, depth),
            _ => self.assertr(size, depth),
        }
    }

    fn parentheses(&mut self, size: usize, depth: usize) {
        self.put("(");
        self.expression(size.saturating_sub(2), depth - 1);
        self.put(")");
    }

    fn unary(&mut self, size: usize, depth: usize) {
        let keyword = *self.random.pick(&["injl", "injr", "take", "drop"]);
        self.put(keyword);
        self.expression(size - 1, depth - 1);
    }

    fn binary(&mut self, size: usize, depth: usize) {
        let keyword = *self.random.pick(&["case", "comp", "pair", "disconnect"]);
        let left = self.random.below(size);
        self.put(keyword);
        self.expression(left, depth - 1);
        self.expression(size - 1 - left, depth - 1);
    }

    fn assertl(&mut self, size: usize, depth: usize) {
        let left = self.random.below(size);
        self.put("assertl");
        self.expression(left, depth - 1);
        self.cmr(size - 1 - left, depth);
    }

    fn assertr(&mut self, size: usize, depth: usize) {
        let left = self.random.below(size);
        self.put("assertr");
        self.cmr(left, depth);
        self.expression(size - 1 - left, depth - 1);
    }

    fn cmr(&mut self, size: usize, depth: usize) {
        if self.random.chance(1, 3) {
            let literal = literals::cmr(self.random);
            self.out.push(literal);
        } else {
            self.put("#{");
            self.expression(size.saturating_sub(2), depth - 1);
            self.put("}");
        }
    }

    fn leaf(&mut self) {
        match self.random.below(24) {
            0..=2 => self.put("unit"),
            3..=5 => self.put("iden"),
            6..=7 => self.put("witness"),
            8..=9 => self.hole(),
            10..=11 => self.word(),
            12 => self.fail(),
            13..=14 => self.jet(),
            _ => self.reference(),
        }
    }

    /// A hole; its name is no use of that name.
    fn hole(&mut self) {
        self.put("?");
        self.any_name();
    }

    fn word(&mut self) {
        let literal = literals::word(self.random);
        self.put("const");
        self.out.push(literal);
    }

    fn fail(&mut self) {
        let literal = literals::entropy(self.random);
        self.put("fail");
        self.out.push(literal);
    }

    fn jet(&mut self) {
        if self.choices.jets.is_empty() {
            self.put("iden");
        } else {
            let jet = self.random.pick(self.choices.jets).clone();
            self.out.push(jet);
        }
    }

    fn reference(&mut self) {
        if self.choices.strangers && self.random.chance(1, 8) {
            self.any_name();
        } else if self.choices.names.is_empty() {
            self.put("unit");
        } else {
            let name = self.random.pick(self.choices.names).clone();
            self.out.push(name);
        }
    }

    /// A name of the file or a stranger.
    fn any_name(&mut self) {
        let name = if self.choices.names.is_empty() || self.random.chance(1, 2) {
            names::stranger(self.random)
        } else {
            self.random.pick(self.choices.names).clone()
        };
        self.out.push(name);
    }
}

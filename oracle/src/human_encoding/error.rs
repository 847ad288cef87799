// SPDX-License-Identifier: CC0-1.0

//! Parsing Errors

use std::collections::BTreeMap;
// CHANGED: printing is left out
use std::sync::Arc;

use crate::types;

use super::Position;

/// A set of errors found in a human-readable encoding of a Simplicity program.
#[derive(Clone, Debug, Default)]
pub struct ErrorSet {
    // CHANGED: the source and its line map, which are for printing, are left out
    errors: BTreeMap<Option<Position>, Vec<Error>>,
}

impl ErrorSet {
    /// Constructs a new empty error set.
    pub fn new() -> Self {
        ErrorSet::default()
    }

    /// Returns the first (and presumably most important) error in the set, if it
    /// is non-empty, along with its position.
    pub fn first_error(&self) -> Option<(Option<Position>, &Error)> {
        self.errors.iter().next().map(|(a, b)| (*a, &b[0]))
    }

    /// Return an iterator over the errors in the error set.
    pub fn iter(&self) -> impl Iterator<Item = &Error> {
        self.errors.values().flatten()
    }

    /// Constructs a new error set with a single error in it.
    pub fn single<P: Into<Position>, E: Into<Error>>(position: P, err: E) -> Self {
        let mut errors = BTreeMap::default();
        errors.insert(Some(position.into()), vec![err.into()]);
        // CHANGED: no source and no line map
        ErrorSet { errors }
    }

    // CHANGED: `single_no_position` is left out

    /// Adds an error to the error set.
    pub fn add<P: Into<Position>, E: Into<Error>>(&mut self, position: P, err: E) {
        self.errors
            .entry(Some(position.into()))
            .or_default()
            .push(err.into());
    }

    // CHANGED: `add_no_position` is left out

    /// Merges another set of errors into the current set.
    // CHANGED: there is no source to compare
    pub fn merge(&mut self, other: &Self) {
        for (pos, errs) in &other.errors {
            self.errors
                .entry(*pos)
                .or_default()
                .extend(errs.iter().cloned());
        }
    }

    // CHANGED: `add_context` is left out

    /// Returns a boolean indicating whether the set is empty.
    pub fn is_empty(&self) -> bool {
        self.errors.is_empty()
    }

    // ADDED: each error with its position
    pub fn rows(&self) -> impl Iterator<Item = (Option<Position>, &Error)> {
        self.errors
            .iter()
            .flat_map(|(position, errors)| errors.iter().map(|error| (*position, error)))
    }

    // CHANGED: `len`, `into_result`, `into_result_with` and the traits for printing are left out
}

/// An individual error.
///
/// Generally this structure should not be used on its own, but only wrapped in an
/// [`ErrorSet`]. This is because in the human-readable encoding errors it is usually
/// possible to continue past individual errors, and the user would prefer to see as
/// many as possible at once.
#[derive(Clone, Debug)]
pub enum Error {
    /// A number of the form 2^y was used as a type but y was not an allowed value
    Bad2ExpNumber(u32),
    /// A constant word had a length which was not an allowable power of 2
    BadWordLength { bit_length: usize },
    /// A "fail" node was provided with less than 128 bits of entropy
    EntropyInsufficient { bit_length: usize },
    /// A "fail" node was provided with more than 512 bits of entropy
    EntropyTooMuch { bit_length: usize },
    // CHANGED: the errors of a `CommitNode` are left out
    /// An expression name was not allowed to be used as a name.
    NameIllegal(Arc<str>),
    /// An expression was given a type, but no actual expression was provided.
    NameIncomplete(Arc<str>),
    /// An expression was referenced but did not refer to anything.
    NameMissing(Arc<str>),
    /// An expression name was used for multiple expressions.
    NameRepeated(Arc<str>),
    // CHANGED: `NoMain` is left out
    /// Parsing failed; the string (if any) is a description of the token at which
    /// parsing failed.
    ParseFailed(Option<String>),
    /// Lexing failed
    LexFailed(String),
    /// A number was parsed in some context but was out of range.
    NumberOutOfRange(String),
    /// Simplicity type-checking error
    TypeCheck(types::Error),
    // CHANGED: `Undefined` is left out
    /// A given jet is not a known jet
    UnknownJet(String),
    // CHANGED: `WitnessDisconnectRepeated` is left out
}

impl From<types::Error> for Error {
    fn from(e: types::Error) -> Self {
        Error::TypeCheck(e)
    }
}

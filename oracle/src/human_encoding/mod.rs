// SPDX-License-Identifier: CC0-1.0

//! The Simplicity Human-Readable Encoding
//!
//! This module provides the ability to decode and encode [`NamedCommitNode`]s
//! in a human-readable format.
//!
// CHANGED: `Forest` and `From<&NoWitness>` are left out; only what the parser calls for stays

mod error;
// CHANGED: a stand-in
use crate::standin::named_node;
// CHANGED: visible to the whole crate
pub(crate) mod parse;

// CHANGED: for spans, in place of what `Forest` uses
use crate::Span;

use std::sync::Arc;

pub use self::error::{Error, ErrorSet};
pub use self::named_node::NamedCommitNode;

/// Line/column pair
#[derive(Copy, Clone, Debug, PartialEq, Eq, PartialOrd, Ord, Default, Hash)]
pub struct Position {
    line: usize,
    column: usize,
    // ADDED: the byte offset and the length of the token that stands there
    offset: usize,
    len: usize,
}

impl Position {
    /// Create a new position from line and column.
    pub fn new(line: usize, column: usize) -> Self {
        // CHANGED: the byte span is put in by `with_span`
        Position {
            line,
            column,
            offset: 0,
            len: 0,
        }
    }

    // ADDED: the same position with its byte span
    pub fn with_span(self, offset: usize, len: usize) -> Self {
        Position {
            offset,
            len,
            ..self
        }
    }

    // ADDED: for callers
    pub fn line(&self) -> usize {
        self.line
    }

    // ADDED: for callers
    pub fn column(&self) -> usize {
        self.column
    }

    // ADDED: the token that stands there
    pub fn span(&self) -> Span {
        Span {
            start: self.offset,
            len: self.len,
        }
    }

    // ADDED: the place in bytes; the default position 0:0 stands for the end of source
    pub fn place(&self, end: usize) -> usize {
        if self.line == 0 {
            end
        } else {
            self.offset
        }
    }
}

/// For named construct nodes, we abuse the `witness` combinator to support typed holes.
///
/// We do this because `witness` nodes have free source and target arrows, and
/// allow us to store arbitrary data in them using the generic witness type of
/// the node. Holes are characterized entirely by their source and target type,
/// just like witnesses, and are labelled by their name.
#[derive(Debug, PartialEq, Eq, Clone, Hash)]
pub enum WitnessOrHole {
    /// This witness is an actual witness combinator (with no witness data attached,
    /// that comes later)
    Witness,
    /// This is a typed hole, with the given name.
    // CHANGED: with the span of the name
    TypedHole(Arc<str>, Span),
}

impl WitnessOrHole {
    pub fn shallow_clone(&self) -> Self {
        match self {
            WitnessOrHole::Witness => WitnessOrHole::Witness,
            // CHANGED: with the span of the name
            WitnessOrHole::TypedHole(name, span) => {
                WitnessOrHole::TypedHole(Arc::clone(name), *span)
            }
        }
    }
}

//! The accessors on any words, against references written from the rules page. What they are lent lies against pages that may
//! not be touched, so a read outside ends the run.

mod inputs;
pub(crate) mod reference;
mod tables;
mod texts;

use crate::scale::Scale;
use crate::tally::Tally;

/// A part: its name, and what compares it.
pub type Part = (&'static str, fn(&Scale, &mut Tally));

/// The parts.
pub const PARTS: [Part; 5] = [
    ("access, roots of any tables", tables::roots),
    ("access, texts of names of any tables", tables::texts),
    (
        "access, all short spans of short sources",
        texts::short_spans,
    ),
    ("access, any spans", texts::any_spans),
    ("access, bytes of literals at any spans", texts::literals),
];

//! Why a source is not read.

use crate::ffi::Read;
use std::fmt;

/// The refusals, in the order in which the reader looks for them; they count from 1.
#[derive(Clone, Copy, Debug, PartialEq, Eq, Hash)]
pub enum Reason {
    ShortTable,
    SourceTooLong,
    NotUtf8,
    NoToken,
    TooManyTokens,
    ParseFailed,
    WordLength,
    FailTooShort,
    FailTooLong,
    UnknownJet,
    BadPower,
    ExponentTooLarge,
    TooDeep,
}

impl Reason {
    pub const ALL: [Reason; 13] = [
        Reason::ShortTable,
        Reason::SourceTooLong,
        Reason::NotUtf8,
        Reason::NoToken,
        Reason::TooManyTokens,
        Reason::ParseFailed,
        Reason::WordLength,
        Reason::FailTooShort,
        Reason::FailTooLong,
        Reason::UnknownJet,
        Reason::BadPower,
        Reason::ExponentTooLarge,
        Reason::TooDeep,
    ];

    /// Its number.
    pub fn number(self) -> u32 {
        self as u32 + 1
    }
}

/// A refusal: why, at which byte (the source's length for its end), and the bit length or exponent that was refused, if any.
#[derive(Clone, Copy, Debug, PartialEq, Eq)]
pub struct Refusal {
    pub reason: Reason,
    pub place: usize,
    pub value: u32,
}

impl Refusal {
    /// The refusal of a row, if it is one.
    pub(super) fn of(row: &Read) -> Option<Self> {
        let index = (row.no as usize).checked_sub(1)?;
        Some(Refusal {
            reason: Reason::ALL[index],
            place: row.place,
            value: row.value,
        })
    }
}

impl fmt::Display for Refusal {
    fn fmt(&self, out: &mut fmt::Formatter<'_>) -> fmt::Result {
        let (reason, no, place) = (self.reason, self.reason.number(), self.place);
        write!(out, "refused {no} at byte {place} ({reason:?}")?;
        match self.value {
            0 => write!(out, ")"),
            value => write!(out, ", {value})"),
        }
    }
}

impl std::error::Error for Refusal {}

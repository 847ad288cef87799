//! The numbers of a reading, each kind of its own type, so that none is used as another.

use std::num::NonZeroU32;

/// A place in the source, in bytes from 0.
#[derive(Clone, Copy, Debug, PartialEq, Eq, PartialOrd, Ord, Hash)]
pub struct ByteOffset(pub u32);

/// A part of the source; one without bytes is none.
#[derive(Clone, Copy, Debug, PartialEq, Eq, Hash)]
pub struct Span {
    pub start: ByteOffset,
    pub len: u32,
}

impl Span {
    pub(super) fn new(start: u32, len: u32) -> Self {
        Span {
            start: ByteOffset(start),
            len,
        }
    }
}

/// A type of record numbers: they begin at 1, and a table has 0 where there is none.
macro_rules! record_number {
    ($(#[$meta:meta])* $name:ident) => {
        $(#[$meta])*
        #[derive(Clone, Copy, Debug, PartialEq, Eq, PartialOrd, Ord, Hash)]
        pub struct $name(NonZeroU32);

        impl $name {
            /// None for 0.
            pub fn new(number: u32) -> Option<Self> {
                NonZeroU32::new(number).map($name)
            }

            pub fn get(self) -> u32 {
                self.0.get()
            }
        }
    };
}

record_number! {
    /// The number of an expression.
    ExpressionNumber
}
record_number! {
    /// The number of a type.
    TypeNumber
}
record_number! {
    /// The number of a name.
    NameNumber
}
record_number! {
    /// The number of a node.
    NodeNumber
}

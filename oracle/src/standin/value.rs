//! Stands in for `Word`, `FailEntropy` and `BitIter`: they keep the bytes and the literal's span. Left out: values of
//! other types, and all arithmetic.

use std::sync::Arc;

use crate::Span;

/// The bits of bytes, the highest first.
pub struct BitIter {
    bytes: Vec<u8>,
    next: usize,
}

impl From<Vec<u8>> for BitIter {
    fn from(bytes: Vec<u8>) -> Self {
        BitIter { bytes, next: 0 }
    }
}

impl Iterator for BitIter {
    type Item = bool;

    fn next(&mut self) -> Option<bool> {
        let byte = self.bytes.get(self.next / 8)?;
        let bit = byte & (128 >> (self.next % 8)) != 0;
        self.next += 1;
        Some(bit)
    }
}

/// There are too few bits.
#[derive(Copy, Clone, Debug, PartialEq, Eq)]
pub struct EarlyEndOfStreamError;

/// A word of 2^n bits.
#[derive(Clone, Debug, PartialEq, Eq, Hash)]
pub struct Word {
    bytes: Arc<[u8]>,
    n: u32,
    span: Span,
}

impl Word {
    pub fn from_bits(bits: &mut BitIter, n: u32) -> Result<Self, EarlyEndOfStreamError> {
        let count = 1usize << n;
        let mut bytes = vec![0; count.div_ceil(8)];
        for index in 0..count {
            if bits.next().ok_or(EarlyEndOfStreamError)? {
                bytes[index / 8] |= 128 >> (index % 8);
            }
        }
        Ok(Word {
            bytes: Arc::from(bytes),
            n,
            span: Span::default(),
        })
    }

    pub fn with_span(self, span: Span) -> Self {
        Word { span, ..self }
    }

    pub fn shallow_clone(&self) -> Self {
        self.clone()
    }

    /// The packed bits: first bit highest, zeros after.
    pub fn word_bytes(&self) -> &[u8] {
        &self.bytes
    }

    /// The word has 2^n bits.
    pub fn n(&self) -> u32 {
        self.n
    }

    /// Where the literal stands.
    pub fn span(&self) -> Span {
        self.span
    }
}

/// The 64 bytes of a `fail` literal.
#[derive(Copy, Clone, Debug, PartialEq, Eq, Hash)]
pub struct FailEntropy {
    bytes: [u8; 64],
    span: Span,
}

impl FailEntropy {
    pub fn from_byte_array(bytes: [u8; 64]) -> Self {
        FailEntropy {
            bytes,
            span: Span::default(),
        }
    }

    pub fn with_span(self, span: Span) -> Self {
        FailEntropy { span, ..self }
    }

    pub fn entropy_bytes(&self) -> &[u8; 64] {
        &self.bytes
    }

    /// Where the literal stands.
    pub fn span(&self) -> Span {
        self.span
    }
}

//! Stands in for the module `jet`: a jet is a name in a list. Left out: types, costs and code of jets.

use std::collections::HashSet;
use std::sync::{Arc, OnceLock};

use crate::Span;

/// A family of jets, which the Rust takes as a type.
pub trait Jet: Sized + 'static {
    /// The jet with this name, looked up in a list.
    fn parse(name: &str, jets: &Jets) -> Result<Listed, Unknown>;
}

/// The jet is not in the list.
#[derive(Copy, Clone, Debug, PartialEq, Eq)]
pub struct Unknown;

/// A jet of the list: the bytes after `jet_`, and the span of its token.
#[derive(Clone, Debug, PartialEq, Eq, Hash)]
pub struct Listed {
    pub name: Arc<str>,
    pub span: Span,
}

impl Listed {
    pub fn with_span(self, span: Span) -> Self {
        Listed { span, ..self }
    }
}

impl Jet for Listed {
    fn parse(name: &str, jets: &Jets) -> Result<Listed, Unknown> {
        if !jets.has(name.as_bytes()) {
            return Err(Unknown);
        }
        Ok(Listed {
            name: Arc::from(name),
            span: Span::default(),
        })
    }
}

/// A jet list: bytes split at newline bytes, of which the piece after the last newline counts too.
#[derive(Clone, Debug)]
pub struct Jets(Arc<List>);

#[derive(Debug)]
struct List {
    bytes: Vec<u8>,
    /// Made when a jet is first looked up.
    pieces: OnceLock<HashSet<Vec<u8>>>,
}

impl Jets {
    pub fn new(bytes: &[u8]) -> Self {
        Jets(Arc::new(List {
            bytes: bytes.to_vec(),
            pieces: OnceLock::new(),
        }))
    }

    /// Whether this is one of the pieces.
    pub fn has(&self, name: &[u8]) -> bool {
        self.0
            .pieces
            .get_or_init(|| {
                self.0
                    .bytes
                    .split(|byte| *byte == 10)
                    .map(<[u8]>::to_vec)
                    .collect()
            })
            .contains(name)
    }
}

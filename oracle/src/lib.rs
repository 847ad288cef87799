//! The reader of the crate simplicity-lang 0.9.0, built as an oracle.
//!
//! `human_encoding` is that crate's text, with every difference marked by a line `// CHANGED: …` or `// ADDED: …`.
//! `standin` holds what is not in that text, cut to what the text calls for. This file gives the results as plain data.
//!
//! The Rust has no limit of depth and recurses, also where trees are dropped: call these functions inside [`with_stack`].

pub mod human_encoding;
pub mod standin;

pub use human_encoding::parse::ast;
pub use standin::jet::Jets;
pub use standin::{dag, jet, node, types, value};

use human_encoding::{Error, ErrorSet};
use standin::logos;
use value::{BitIter, FailEntropy};

/// A part of the source, in bytes; 0, 0 is none.
#[derive(Copy, Clone, Debug, Default, PartialEq, Eq, Hash)]
pub struct Span {
    pub start: usize,
    pub len: usize,
}

/// A token: its kind's number, from 1 for `:=` to 34 for a symbol, and where it stands.
#[derive(Copy, Clone, Debug, PartialEq, Eq)]
pub struct Token {
    pub kind: u32,
    pub start: usize,
    pub len: usize,
}

/// The tokens before the first byte where nothing matches, and that byte's offset.
#[derive(Clone, Debug, PartialEq, Eq)]
pub struct Lexed {
    pub tokens: Vec<Token>,
    pub bad: Option<usize>,
}

/// Refusal 4 or 6 to 12: its number, its place in bytes (the source's length for the end of source) and its value.
#[derive(Copy, Clone, Debug, PartialEq, Eq)]
pub struct Refusal {
    pub no: u32,
    pub place: usize,
    pub value: u64,
}

/// What is read from a source.
#[derive(Clone, Debug)]
pub struct Reading {
    pub tokens: Vec<Token>,
    pub lines: Vec<ast::Line>,
    /// In the order of first legal lines.
    pub names: Vec<Name>,
    /// In the order in which step 2 finishes them; a node's number is its index plus 1.
    pub nodes: Vec<Node>,
    /// In the order of names.
    pub roots: Vec<Root>,
    /// The errors of step 1, in the order of lines.
    pub line_errors: Vec<ErrorRow>,
    /// The missing and incomplete errors in the order in which step 3 adds them, once for each root.
    pub step3_errors: Vec<ErrorRow>,
    /// All errors in the order in which the Rust's `ErrorSet` hands them out, which is by line and column.
    pub reported: Vec<ErrorRow>,
}

/// A name with a legal line.
#[derive(Clone, Debug, PartialEq, Eq)]
pub struct Name {
    pub text: String,
    /// Where it stands in its first legal line.
    pub span: Span,
    /// The number of its node.
    pub node: usize,
    /// The types that its lines give, in order; absent ones are left out.
    pub source_types: Vec<ast::Type>,
    pub target_types: Vec<ast::Type>,
}

/// A node of step 2.
#[derive(Clone, Debug, PartialEq, Eq)]
pub struct Node {
    /// 1 to 20: missing, noexpr, ref, assertl, assertr, iden, unit, injl, injr, take, drop, comp, case, pair,
    /// disconnect, witness, hole, fail, jet, word.
    pub kind: u32,
    pub start: usize,
    /// Its name, if it is the outermost node of one.
    pub name: Option<String>,
    /// Node numbers, 0 for none. The side of a literal CMR is 0; any other lone child is the left one.
    pub left: usize,
    pub right: usize,
    pub span: Span,
    pub in_degree: usize,
}

/// A named node of in-degree 0.
#[derive(Clone, Debug, PartialEq, Eq)]
pub struct Root {
    pub name: String,
    pub node: usize,
    /// Step 3 does not give this root.
    pub dropped: bool,
}

/// An error: illegal 1, repeated 2, missing 3, incomplete 4.
#[derive(Clone, Debug, PartialEq, Eq, Hash)]
pub struct ErrorRow {
    pub kind: u32,
    pub start: usize,
    pub name: String,
}

/// The tokens of a source, without lines and columns.
pub fn lex(source: &str) -> Lexed {
    ast::lex(source)
}

/// Runs the Rust's `lex_all`, which counts line and column from the start for every token. Gives the number of tokens,
/// or the offset where nothing matches.
pub fn lex_all_positions(source: &str) -> usize {
    match ast::count(source) {
        Ok(count) => count,
        Err(errors) => refusal(&errors, source).place,
    }
}

/// Line and column of a byte offset, both from 1, as the Rust counts them.
pub fn offset_to_position(source: &str, offset: usize) -> (usize, usize) {
    let position = ast::offset_to_position(source, offset);
    (position.line(), position.column())
}

/// Reads a source with a jet list, which is split at newline bytes.
pub fn read(source: &str, jets: &[u8]) -> Result<Reading, Refusal> {
    read_with(source, &Jets::new(jets))
}

/// Like [`read`], with a jet list that serves many sources.
pub fn read_with(source: &str, jets: &Jets) -> Result<Reading, Refusal> {
    human_encoding::parse::parse::<jet::Listed>(source, jets)
        .map_err(|errors| refusal(&errors, source))
}

/// Runs the Rust's `parse_line_vector` alone: the tokens and the lines of a source. Names are not resolved.
pub fn parse_lines(source: &str, jets: &Jets) -> Result<(Vec<Token>, Vec<ast::Line>), Refusal> {
    ast::parse_line_vector::<jet::Listed>(source, jets).map_err(|errors| refusal(&errors, source))
}

/// Runs the Rust's `parse` and gives the number of nodes. Nothing is made into plain data, so this is what to time.
pub fn run(source: &str, jets: &Jets) -> Result<usize, Refusal> {
    human_encoding::parse::run::<jet::Listed>(source, jets)
        .map_err(|errors| refusal(&errors, source))
}

/// Calls a function on a thread of its own with a stack of 512 MiB. Call it once for many sources.
pub fn with_stack<R: Send>(f: impl FnOnce() -> R + Send) -> R {
    std::thread::scope(|scope| {
        std::thread::Builder::new()
            .stack_size(512 << 20)
            .spawn_scoped(scope, f)
            .expect("a thread with a large stack")
            .join()
            .unwrap_or_else(|panic| std::panic::resume_unwind(panic))
    })
}

/// The refusal that an error before step 1 stands for.
fn refusal(errors: &ErrorSet, source: &str) -> Refusal {
    let (position, error) = errors.first_error().expect("an error");
    let (no, value) = match *error {
        Error::LexFailed(_) => (4, 0),
        Error::ParseFailed(_) => (6, 0),
        Error::BadWordLength { bit_length } => (7, bit_length as u64),
        Error::EntropyInsufficient { bit_length } => (8, bit_length as u64),
        Error::EntropyTooMuch { bit_length } => (9, bit_length as u64),
        Error::UnknownJet(_) => (10, 0),
        Error::Bad2ExpNumber(exponent) => (11, u64::from(exponent)),
        Error::NumberOutOfRange(_) => (12, 0),
        ref other => unreachable!("no refusal: {other:?}"),
    };
    Refusal {
        no,
        place: position.expect("a position").place(source.len()),
        value,
    }
}

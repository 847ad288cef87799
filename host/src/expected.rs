//! What document 01 says the reader gives for a source and a jet list: the refusal, or the records of the seven tables as
//! words, made from the oracle's answers. The Rust recurses, so call these functions inside `oracle::with_stack`.

mod records;
mod resolved;
mod rust;
mod sheet;
#[cfg(test)]
mod tests;

pub use rust::Rust;
pub use sheet::{listing, sheet, ERROR_WORDS, NODE_WORDS};

use oracle::ast::{Line, Type};
use oracle::{Jets, Reading, Refusal, Token};

use crate::depth::too_deep;
use records::Records;

const SOURCE_LIMIT: usize = 32_768;
const TOKEN_LIMIT: usize = 1_024;

// the tables, in their order
pub(crate) const TOKENS: usize = 0;
pub(crate) const LINES: usize = 1;
pub(crate) const EXPRESSIONS: usize = 2;
pub(crate) const TYPES: usize = 3;
pub(crate) const NAMES: usize = 4;
pub(crate) const NODES: usize = 5;
pub(crate) const ERRORS: usize = 6;

/// Words per record of each table.
pub const WIDTHS: [usize; 7] = [3, 5, 6, 4, 4, 8, 4];

/// The answer: `no` is 0 and the tables hold records, or it is a refusal's number and they hold none.
#[derive(Clone, Debug, Default, PartialEq, Eq)]
pub struct Expected {
    pub no: u32,
    pub place: u32,
    pub value: u32,
    /// Tokens, lines, expressions, types, names, nodes, errors.
    pub counts: [u32; 7],
    /// The words of the records, without what follows them.
    pub tables: [Vec<u32>; 7],
    /// In the order of names.
    pub roots: Vec<Root>,
}

/// A root: the number of its name, and the name's text.
#[derive(Clone, Debug, PartialEq, Eq)]
pub struct Root {
    pub number: u32,
    pub text: String,
}

/// What the reader gives.
pub fn expected(source: &[u8], jets: &[u8]) -> Expected {
    expected_with(source, &Jets::new(jets))
}

/// Like [`expected`], with a jet list that serves many sources.
pub fn expected_with(source: &[u8], jets: &Jets) -> Expected {
    whole_with(source, jets).expected
}

/// All that the oracle says about a source.
#[derive(Debug, Default)]
pub struct Whole {
    pub expected: Expected,
    /// The types of each name, in the order of names; none if the source is refused.
    pub types: Vec<UserTypes>,
    /// What the Rust itself gives; None if the source is refused.
    pub rust: Option<Rust>,
}

/// All that the oracle says, with a jet list that serves many sources.
pub fn whole_with(source: &[u8], jets: &Jets) -> Whole {
    let whole = |text: &str| oracle::read_with(text, jets);
    match read(source, whole, |reading| &reading.tokens) {
        Ok(reading) => Whole {
            expected: recorded(source, &reading),
            types: reading.names.iter().map(UserTypes::of).collect(),
            rust: Some(Rust::of(&reading)),
        },
        Err(refusal) => Whole {
            expected: refused_by(&refusal),
            ..Whole::default()
        },
    }
}

/// What the parser gives, with a jet list that serves many sources: the first four tables, and nothing in the others. The
/// Rust's lines stand beside it; there are none if the source is refused.
pub fn parsed_with(source: &[u8], jets: &Jets) -> (Expected, Vec<Line>) {
    let parsed = |text: &str| oracle::parse_lines(text, jets);
    match read(source, parsed, |(tokens, _)| tokens) {
        Ok((tokens, lines)) => {
            let (records, _) = Records::of_lines(source, &tokens, &lines);
            (answer(records), lines)
        }
        Err(refusal) => (refused_by(&refusal), Vec::new()),
    }
}

/// The types that the lines of a name give it, as the Rust keeps them for the name's node.
#[derive(Clone, Debug, Default, PartialEq, Eq)]
pub struct UserTypes {
    pub source: Vec<Type>,
    pub target: Vec<Type>,
}

impl UserTypes {
    fn of(name: &oracle::Name) -> Self {
        UserTypes {
            source: name.source_types.clone(),
            target: name.target_types.clone(),
        }
    }
}

/// A number as a word of a table.
fn word(number: usize) -> u32 {
    u32::try_from(number).expect("a word is a u32")
}

/// What the oracle reads within the limits, or the refusal; `tokens` are those of what it reads.
fn read<T>(
    source: &[u8],
    oracle: impl FnOnce(&str) -> Result<T, Refusal>,
    tokens: impl FnOnce(&T) -> &Vec<Token>,
) -> Result<T, Refusal> {
    if source.len() > SOURCE_LIMIT {
        return Err(refused(2, 0));
    }
    let text = std::str::from_utf8(source).map_err(|error| refused(3, error.valid_up_to()))?;
    // the tokens are those before the byte where nothing matches, so one too many is met before that byte
    let lexed = oracle::lex(text);
    if let Some(token) = lexed.tokens.get(TOKEN_LIMIT) {
        return Err(refused(5, token.start));
    }
    if let Some(place) = lexed.bad {
        return Err(refused(4, place));
    }
    // depth is looked for before the token is looked at, so 13 stands before a refusal at the same place
    let kinds: Vec<u32> = lexed.tokens.iter().map(|token| token.kind).collect();
    let start = |index: usize| lexed.tokens.get(index).map_or(source.len(), |t| t.start);
    let deep = too_deep(&kinds).map(start);
    match (oracle(text), deep) {
        (Err(refusal), None) => Err(refusal),
        (Err(refusal), Some(place)) if refusal.place < place => Err(refusal),
        (_, Some(place)) => Err(refused(13, place)),
        (Ok(reading), None) => {
            assert_eq!(tokens(&reading), &lexed.tokens);
            Ok(reading)
        }
    }
}

fn refused(no: u32, place: usize) -> Refusal {
    Refusal {
        no,
        place,
        value: 0,
    }
}

/// The answer of a refusal.
fn refused_by(refusal: &Refusal) -> Expected {
    Expected {
        no: refusal.no,
        place: word(refusal.place),
        value: u32::try_from(refusal.value).expect("a value is a u32"),
        ..Expected::default()
    }
}

/// The answer with these records.
fn answer(records: Records) -> Expected {
    let tables = records.into_tables();
    let mut counts = [0; 7];
    for (count, (table, width)) in counts.iter_mut().zip(tables.iter().zip(WIDTHS)) {
        *count = word(table.len() / width);
    }
    Expected {
        counts,
        tables,
        ..Expected::default()
    }
}

/// The records of what is read.
fn recorded(source: &[u8], reading: &Reading) -> Expected {
    let (mut records, expressions) = Records::of_lines(source, &reading.tokens, &reading.lines);
    let numbers = records.names(reading, &expressions);
    records.nodes(reading, &numbers);
    records.line_errors(reading);
    records.node_errors(reading);
    let roots = reading.roots.iter().map(|root| Root {
        number: numbers[root.name.as_str()],
        text: root.name.clone(),
    });
    Expected {
        roots: roots.collect(),
        ..answer(records)
    }
}

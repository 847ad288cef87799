//! Source files made from a seed, in families that each strain another rule.

mod arrows;
mod damage;
mod depths;
mod examples;
mod expressions;
mod files;
mod jets;
mod layout;
mod limits;
mod literals;
mod names;
#[cfg(test)]
mod recogniser;
mod soups;
#[cfg(test)]
mod tests;
mod vocabulary;

pub(crate) use damage::ILL_FORMED;
pub use damage::{damage_bytes, damaged, misplaced_token};
pub use depths::depth_limit;
pub(crate) use depths::{BOTTOMS, EXPRESSION_LEVELS, TYPE_BOTTOMS, TYPE_LEVELS};
pub use examples::example;
pub use files::{jet_edges, literal_edges, sound, type_edges, unsound};
pub use limits::{byte_limit, name_series, token_limit};
pub use soups::{any_token, byte_soup, token_soup};
pub(crate) use vocabulary::{KEYWORDS, PUNCTUATION};

use crate::random::Random;

/// The tokens of one line.
pub(crate) type Line = Vec<String>;

/// A family of files.
#[derive(Clone, Copy, Debug, PartialEq, Eq)]
pub enum Shape {
    /// Reads without refusal and without error.
    Sound,
    /// Reads without refusal; names may be missing, illegal, repeated, incomplete or in loops.
    Unsound,
    /// Literals at their edges.
    LiteralEdges,
    /// Jets known and unknown, jet lists of every form.
    JetEdges,
    /// Types at their edges.
    TypeEdges,
    /// Examples on the edge, in one line each.
    Example,
    /// A grammatical file with tokens changed.
    MisplacedToken,
    /// A good file with bytes changed.
    Damaged,
    /// Tokens in any order.
    TokenSoup,
    /// Bytes in any order.
    ByteSoup,
    /// About 1,024 tokens.
    TokenLimit,
    /// About 128 levels of every form of nesting.
    DepthLimit,
    /// About 32,768 bytes.
    ByteLimit,
    /// Names that each use the next, up to 342 of them.
    NameSeries,
}

impl Shape {
    pub const ALL: [Shape; 14] = [
        Shape::Sound,
        Shape::Unsound,
        Shape::LiteralEdges,
        Shape::JetEdges,
        Shape::TypeEdges,
        Shape::Example,
        Shape::MisplacedToken,
        Shape::Damaged,
        Shape::TokenSoup,
        Shape::ByteSoup,
        Shape::TokenLimit,
        Shape::DepthLimit,
        Shape::ByteLimit,
        Shape::NameSeries,
    ];

    /// How many files out of `WEIGHTS` are of this family.
    const fn weight(self) -> usize {
        match self {
            Shape::Sound => 14,
            Shape::Unsound => 18,
            Shape::LiteralEdges | Shape::TypeEdges => 8,
            Shape::JetEdges | Shape::TokenLimit | Shape::NameSeries => 4,
            Shape::Example | Shape::DepthLimit => 6,
            Shape::MisplacedToken | Shape::Damaged => 10,
            Shape::TokenSoup | Shape::ByteSoup => 8,
            Shape::ByteLimit => 2,
        }
    }

    /// A file of this family.
    pub fn make(self, random: &mut Random) -> File {
        match self {
            Shape::Sound => sound(random),
            Shape::Unsound => unsound(random),
            Shape::LiteralEdges => literal_edges(random),
            Shape::JetEdges => jet_edges(random),
            Shape::TypeEdges => type_edges(random),
            Shape::Example => example(random),
            Shape::MisplacedToken => misplaced_token(random),
            Shape::Damaged => damaged(random),
            Shape::TokenSoup => token_soup(random),
            Shape::ByteSoup => byte_soup(random),
            Shape::TokenLimit => token_limit(random),
            Shape::DepthLimit => depth_limit(random),
            Shape::ByteLimit => byte_limit(random),
            Shape::NameSeries => name_series(random),
        }
    }
}

/// A source with the jet list it is read by.
#[derive(Clone, Debug, PartialEq, Eq)]
pub struct File {
    pub shape: Shape,
    pub source: Vec<u8>,
    pub jets: Vec<u8>,
}

/// A file of any family.
pub fn generate(random: &mut Random) -> File {
    let total = Shape::ALL.iter().map(|shape| shape.weight()).sum();
    let mut left = random.below(total);
    for shape in Shape::ALL {
        if left < shape.weight() {
            return shape.make(random);
        }
        left -= shape.weight();
    }
    unreachable!("a number below the sum of the weights falls to a family")
}

/// The tokens of a text that has a space between any two.
pub(crate) fn spaced(text: &str) -> Line {
    text.split(' ').map(str::to_owned).collect()
}

//! The limit of depth, read from the kinds of tokens alone. The Rust has no such limit, so this is a reading of its own.
//!
//! A line's expression and a line's type are 1 deep. A child, the contents of `( )` and of `#{ }` are one deeper. Only an
//! expression or a type has a depth: a literal CMR and `#{` have none.

/// The greatest depth that is read.
pub const DEPTH_LIMIT: u32 = 128;

/// The kinds of tokens that the grammar tells apart; those left out lie between two of them.
pub mod kind {
    pub const ASSIGN: u32 = 1;
    pub const ARROW: u32 = 2;
    pub const HASH_BRACE: u32 = 3;
    pub const LPAREN: u32 = 4;
    pub const RPAREN: u32 = 5;
    pub const PLUS: u32 = 6;
    pub const STAR: u32 = 7;
    pub const COLON: u32 = 8;
    pub const RBRACE: u32 = 9;
    pub const QUESTION: u32 = 10;
    pub const CONST: u32 = 11;
    pub const ASSERTL: u32 = 12;
    pub const ASSERTR: u32 = 13;
    pub const FAIL: u32 = 14;
    pub const DISCONNECT: u32 = 15;
    pub const PAIR: u32 = 18;
    pub const INJL: u32 = 19;
    pub const DROP: u32 = 22;
    pub const UNIT: u32 = 23;
    pub const WITNESS: u32 = 25;
    pub const UNDERSCORE: u32 = 26;
    pub const ONE: u32 = 27;
    pub const TWO: u32 = 28;
    pub const POWER: u32 = 29;
    pub const BIN: u32 = 30;
    pub const HEX: u32 = 31;
    pub const CMR: u32 = 32;
    pub const JET: u32 = 33;
    pub const SYMBOL: u32 = 34;
}

use kind::*;

/// What has to come next.
#[derive(Clone, Copy)]
enum Want {
    Line,
    /// `:=` and an expression, or `:` and an arrow.
    Definition,
    /// Perhaps `:` and an arrow.
    PerhapsArrow,
    Arrow,
    /// A token of one of these kinds.
    OneOf(&'static [u32]),
    Expression(u32),
    /// A CMR; its expression has this depth.
    Cmr(u32),
    Type(u32),
    /// An atom of a type of this depth.
    Atom(u32),
    /// Perhaps an operator and an atom of a type of this depth, and so on.
    Operators(u32),
}

use Want::*;

/// What comes of a want. Lists of wants are in reading order.
enum Round {
    /// The token is passed, and these are wanted behind it.
    Passed(Vec<Want>),
    /// These are wanted instead, at the same token.
    Stayed(Vec<Want>),
    /// Depth 129 begins here.
    Deep,
    /// The tokens end, or break the grammar.
    Over,
}

/// The index of the first token, or the number of tokens for the end of source, at which depth 129 begins. None if it
/// begins nowhere before the grammar is broken.
pub fn too_deep(kinds: &[u32]) -> Option<usize> {
    let mut at = 0;
    // the last entry comes next
    let mut wants = vec![Line];
    while let Some(want) = wants.pop() {
        let next = match round(want, kinds.get(at).copied()) {
            Round::Passed(next) => {
                at += 1;
                next
            }
            Round::Stayed(next) => next,
            Round::Deep => return Some(at),
            Round::Over => return None,
        };
        wants.extend(next.into_iter().rev());
    }
    None
}

/// What comes of a want before a token of a kind, or before the end. Depth is looked at before the token is.
fn round(want: Want, kind: Option<u32>) -> Round {
    match (want, kind) {
        (Expression(depth) | Type(depth), _) if depth > DEPTH_LIMIT => Round::Deep,
        (Type(depth), _) => Round::Stayed(vec![Atom(depth), Operators(depth)]),
        (Arrow, _) => Round::Stayed(vec![Type(1), OneOf(&[ARROW]), Type(1)]),
        (PerhapsArrow, kind) if kind != Some(COLON) => Round::Stayed(vec![]),
        (Operators(_), kind) if !matches!(kind, Some(PLUS | STAR)) => Round::Stayed(vec![]),
        (want, kind) => kind
            .and_then(|kind| behind(want, kind))
            .map_or(Round::Over, Round::Passed),
    }
}

/// What is wanted behind a token of a kind that meets a want; None if it does not meet it.
fn behind(want: Want, kind: u32) -> Option<Vec<Want>> {
    Some(match (want, kind) {
        (Line, SYMBOL | UNDERSCORE) => vec![Definition, Line],
        (Definition, ASSIGN) => vec![Expression(1), PerhapsArrow],
        (Definition | PerhapsArrow, COLON) => vec![Arrow],
        (OneOf(kinds), kind) if kinds.contains(&kind) => vec![],
        (Expression(depth), kind) => return operands(kind, depth + 1),
        (Cmr(depth), HASH_BRACE) => vec![Expression(depth), OneOf(&[RBRACE])],
        (Cmr(_), CMR) => vec![],
        (Atom(depth), LPAREN) => vec![Type(depth + 1), OneOf(&[RPAREN])],
        (Atom(_), ONE..=POWER | SYMBOL | UNDERSCORE) => vec![],
        (Operators(depth), PLUS | STAR) => vec![Atom(depth), Operators(depth)],
        _ => return None,
    })
}

/// What is wanted behind the first token of an expression whose children have a depth; None if none begins so.
fn operands(kind: u32, child: u32) -> Option<Vec<Want>> {
    Some(match kind {
        LPAREN => vec![Expression(child), OneOf(&[RPAREN])],
        QUESTION => vec![OneOf(&[SYMBOL, UNDERSCORE])],
        CONST | FAIL => vec![OneOf(&[UNDERSCORE, BIN, HEX])],
        ASSERTL => vec![Expression(child), Cmr(child)],
        ASSERTR => vec![Cmr(child), Expression(child)],
        DISCONNECT..=PAIR => vec![Expression(child), Expression(child)],
        INJL..=DROP => vec![Expression(child)],
        UNIT..=WITNESS | JET | SYMBOL | UNDERSCORE => vec![],
        _ => return None,
    })
}

#[cfg(test)]
mod tests {
    use super::too_deep;

    fn deep(source: &str) -> Option<usize> {
        let kinds: Vec<u32> = oracle::lex(source).tokens.iter().map(|t| t.kind).collect();
        too_deep(&kinds)
    }

    #[test]
    fn expressions() {
        // `unit` stands at the depth 1 more than the number of `take`
        let taken = |count, rest| format!("a := {}{rest}", "take ".repeat(count));
        assert_eq!(deep(&taken(127, "unit")), None);
        assert_eq!(deep(&taken(128, "unit")), Some(130));
        assert_eq!(deep(&taken(128, "")), Some(130));
        assert_eq!(deep(&taken(128, ")")), Some(130));
        assert_eq!(deep(&taken(127, "")), None);
        assert_eq!(deep(&taken(127, "pair")), Some(130));
        assert_eq!(deep(&taken(127, "( unit )")), Some(130));
        assert_eq!(deep(&taken(126, "( unit )")), None);
        assert_eq!(deep(&taken(126, "pair unit ( unit )")), Some(131));
        assert_eq!(deep(&taken(127, "?a")), None);
        assert_eq!(deep(&taken(127, "const 0b1")), None);
        assert_eq!(deep(&taken(127, "const )")), None);
    }

    #[test]
    fn assertions() {
        let cmr = format!("#{}", "0".repeat(64));
        let taken = |rest: &str| format!("a := {}{rest}", "take ".repeat(127));
        assert_eq!(deep(&taken("assertl unit")), Some(130));
        assert_eq!(deep(&taken("assertr unit")), None);
        assert_eq!(deep(&taken("assertr #{")), Some(131));
        assert_eq!(deep(&taken("assertr #{ unit }")), Some(131));
        assert_eq!(deep(&taken(&format!("assertr {cmr}"))), Some(131));
        assert_eq!(deep(&taken(&format!("assertr {cmr} unit"))), Some(131));
        assert_eq!(deep(&taken("assertr")), None);
        let inside = |rest: &str| format!("a := {}{rest}", "take ".repeat(126));
        assert_eq!(deep(&inside("assertr #{ unit } unit")), None);
        assert_eq!(deep(&inside("assertl unit #{ take unit }")), Some(132));
    }

    #[test]
    fn types() {
        let nested = |count| format!("a : {}1{} -> 1", "(".repeat(count), ")".repeat(count));
        assert_eq!(deep(&nested(127)), None);
        assert_eq!(deep(&nested(128)), Some(130));
        let target = |count| format!("a : 1 -> 1 + {}1{}", "(".repeat(count), ")".repeat(count));
        assert_eq!(deep(&target(127)), None);
        assert_eq!(deep(&target(128)), Some(134));
        assert_eq!(deep(&format!("a : {}", "(".repeat(128))), Some(130));
        assert_eq!(deep(&format!("a : {}", "(".repeat(127))), None);
        // operators add no depth
        assert_eq!(deep(&format!("a : 1{} -> 1", " + 1".repeat(300))), None);
        assert_eq!(deep(&format!("a := unit : {}", "(".repeat(200))), Some(132));
    }

    #[test]
    fn broken() {
        assert_eq!(deep(""), None);
        let deep_line = format!("a := {}unit", "take ".repeat(128));
        assert_eq!(deep(&format!("a unit {deep_line}")), None);
        assert_eq!(deep(&format!("a := unit ) {deep_line}")), None);
        assert_eq!(deep(&format!("b := unit {deep_line}")), Some(133));
        assert_eq!(deep(&format!("b : 1 -> 1 {deep_line}")), Some(135));
        assert_eq!(deep(&format!("b := unit : 1 -> 1 {deep_line}")), Some(137));
    }
}

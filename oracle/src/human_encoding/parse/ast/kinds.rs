//! Tokens as plain data: the numbers of their kinds, and the lexer without lines and columns.

use super::{lex_all, ErrorSet, Logos, Spanned, Token};

impl Token {
    /// Punctuation, keywords, then the others.
    fn kind(&self) -> u32 {
        match self {
            Token::Assign => 1,
            Token::Arrow => 2,
            Token::HashBrace => 3,
            Token::LParen => 4,
            Token::RParen => 5,
            Token::Plus => 6,
            Token::Star => 7,
            Token::Colon => 8,
            Token::RBrace => 9,
            Token::Question => 10,
            Token::Const => 11,
            Token::AssertL => 12,
            Token::AssertR => 13,
            Token::Fail => 14,
            Token::Disconnect => 15,
            Token::Case => 16,
            Token::Comp => 17,
            Token::Pair => 18,
            Token::InjL => 19,
            Token::InjR => 20,
            Token::Take => 21,
            Token::Drop => 22,
            Token::Unit => 23,
            Token::Iden => 24,
            Token::Witness => 25,
            Token::Underscore => 26,
            Token::One => 27,
            Token::Two => 28,
            Token::TwoExp(_) => 29,
            Token::BinLiteral(_) => 30,
            Token::HexLiteral(_) => 31,
            Token::CmrLiteral(_) => 32,
            Token::Jet(_) => 33,
            Token::Symbol(_) => 34,
        }
    }
}

/// A token as plain data.
pub(super) fn plain(spanned: &Spanned) -> crate::Token {
    let span = spanned.position.span();
    crate::Token {
        kind: spanned.token.kind(),
        start: span.start,
        len: span.len,
    }
}

/// The tokens before the first byte where nothing matches, and that byte's offset.
pub(crate) fn lex(input: &str) -> crate::Lexed {
    let mut lexer = Token::lexer(input);
    let mut tokens = Vec::new();
    while let Some(result) = lexer.next() {
        let span = lexer.span();
        match result {
            Ok(token) => tokens.push(crate::Token {
                kind: token.kind(),
                start: span.start,
                len: span.len(),
            }),
            Err(()) => {
                return crate::Lexed {
                    tokens,
                    bad: Some(span.start),
                }
            }
        }
    }
    crate::Lexed { tokens, bad: None }
}

/// The number of tokens, from `lex_all`.
pub(crate) fn count(input: &str) -> Result<usize, ErrorSet> {
    lex_all(input).map(|tokens| tokens.len())
}

//! The kinds of tokens, nodes and errors, with the words for them; those of nodes and errors stand in listings.

/// A type of kinds: the tables count them from 1 in this order.
macro_rules! kinds {
    ($(#[$meta:meta])* $name:ident { $($kind:ident $word:literal),* $(,)? }) => {
        $(#[$meta])*
        #[derive(Clone, Copy, Debug, PartialEq, Eq, Hash)]
        pub enum $name {
            $($kind),*
        }

        impl $name {
            pub const ALL: &'static [$name] = &[$($name::$kind),*];

            /// The kind of this number; None if there is none.
            pub fn of(number: u32) -> Option<Self> {
                let index = usize::try_from(number).ok()?.checked_sub(1)?;
                Self::ALL.get(index).copied()
            }

            /// Its number in the tables.
            pub fn number(self) -> u32 {
                self as u32 + 1
            }

            /// The word for it.
            pub fn word(self) -> &'static str {
                match self {
                    $($name::$kind => $word),*
                }
            }
        }
    };
}

kinds! {
    /// What a token is; the word is its text, or how that begins.
    TokenKind {
        Assign ":=",
        Arrow "->",
        CmrOpen "#{",
        Open "(",
        Close ")",
        Plus "+",
        Star "*",
        Colon ":",
        CmrClose "}",
        Question "?",
        Const "const",
        AssertL "assertl",
        AssertR "assertr",
        Fail "fail",
        Disconnect "disconnect",
        Case "case",
        Comp "comp",
        Pair "pair",
        InjL "injl",
        InjR "injr",
        Take "take",
        Drop "drop",
        Unit "unit",
        Iden "iden",
        Witness "witness",
        Underscore "_",
        One "1",
        Two "2",
        Power "2^",
        Bits "0b",
        Hex "0x",
        CmrLiteral "#",
        Jet "jet_",
        Symbol "",
    }
}

kinds! {
    /// What a node or an expression is.
    NodeKind {
        Missing "missing",
        NoExpr "noexpr",
        Reference "ref",
        AssertL "assertl",
        AssertR "assertr",
        Iden "iden",
        Unit "unit",
        InjL "injl",
        InjR "injr",
        Take "take",
        Drop "drop",
        Comp "comp",
        Case "case",
        Pair "pair",
        Disconnect "disconnect",
        Witness "witness",
        Hole "hole",
        Fail "fail",
        Jet "jet",
        Word "word",
    }
}

kinds! {
    /// What is wrong with a line or a node.
    ErrorKind {
        Illegal "illegal",
        Repeated "repeated",
        Missing "missing",
        Incomplete "incomplete",
    }
}

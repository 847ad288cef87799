//! The words that files are made of.

pub const PUNCTUATION: [&str; 10] = [":=", "->", "#{", "(", ")", "+", "*", ":", "}", "?"];

pub const KEYWORDS: [&str; 15] = [
    "const",
    "assertl",
    "assertr",
    "fail",
    "disconnect",
    "case",
    "comp",
    "pair",
    "injl",
    "injr",
    "take",
    "drop",
    "unit",
    "iden",
    "witness",
];

/// Legal names of many forms, some of them close to keywords, jets, comments and arrows.
pub const NAMES: [&str; 40] = [
    "main", "a", "b", "c", "x", "y1", "z'", "A", "Z9", "a.b", "a-b", "a--b", "-", "-a", ".", ".5",
    "'", "''", "_a", "__", "_1", "-'.", "units", "unit_", "iden'", "Unit", "UNIT", "con", "const.",
    "witness2", "jet", "jet_", "jet_A", "jet-add", "Jet_add", "a-", "e", "f0", "bx", "x0",
];

/// Legal names that almost begin with `prim`.
pub const NEAR_NAMES: [&str; 10] = [
    "Prim", "pri", "_prim", "pRim", "priM", "PRIM", ".prim", "-prim", "pr.im", "aprim",
];

/// Names that no line may have.
pub const ILLEGAL_NAMES: [&str; 7] = ["_", "prim", "prima", "prim_x", "prim-", "prim'", "primPrim"];

pub const JET_NAMES: [&str; 20] = [
    "verify",
    "add_32",
    "add_3",
    "add_",
    "low_1",
    "low_32",
    "eq_256",
    "sha_256_iv",
    "one_8",
    "ch_1",
    "le_32",
    "all_8",
    "some_1",
    "bip_0340_verify",
    "jet_verify",
    "v",
    "0",
    "_",
    "__",
    "xor_64",
];

/// Exponents that make a type.
pub const GOOD_EXPONENTS: [&str; 10] = ["1", "2", "4", "8", "16", "32", "64", "128", "256", "512"];

/// Exponents that are refused, by value, by range, or as tokens. The large ones
/// are those that would be good if the number wrapped round.
pub const BAD_EXPONENTS: [&str; 29] = [
    "0",
    "01",
    "3",
    "5",
    "6",
    "7",
    "9",
    "10",
    "12",
    "15",
    "17",
    "20",
    "48",
    "127",
    "129",
    "255",
    "511",
    "513",
    "1023",
    "1024",
    "65536",
    "2147483648",
    "4294967295",
    "4294967296",
    "4294967298",
    "18446744073709551616",
    "18446744073709551618",
    "340282366920938463463374607431768211458",
    "99999999999999999999999999999999999999999999",
];

/// Texts that are no token, or not the token they look like.
pub const BROKEN: [&str; 24] = [
    "2^", "2^0", "2^01", "2^-1", "0", "0b", "0b2", "0x", "0xg", "0xA", "0B1", "3", "10", "#", "#a",
    "#(", "=", ">", "- >", ": =", "^", "{", "=:", "/",
];

/// White space between tokens.
pub const BLANKS: [&str; 8] = [" ", " ", "  ", "\t", "\r", "\n", "\r\n", " \n "];

/// What stands in a comment after its dashes.
pub const COMMENTS: [&str; 12] = [
    "",
    "-",
    " note",
    " := unit",
    " a -> b",
    "> no arrow",
    " -- twice",
    "\r",
    " \t",
    " gr\u{fc}n",
    " \u{65e5}\u{672c}\u{8a9e}",
    " \u{1f980}\u{7ff}\u{800}\u{ffff}\u{10ffff}",
];

/// Bytes that tell the token rules apart, and those that end or break characters.
pub const SOUP_BYTES: &[u8] = b"::=->>##{{()+*}?__1122^^00bbxxaaffFGgz--..''jetprimuniconst3 9  \
    \t\r\n\n\x00\x0b\x7f\x80\xbf\xc2\xa0\xe2\x82\xac\xf0\x9f\xa6\x80\xff@/\\\"";

//! Stands in for the crate `logos`: a macro in place of `#[derive(Logos)]`, and the lexer that it makes.
//!
//! The macro takes the enum's text as it stands, so that its patterns are what runs. The rule: the longest match wins;
//! on equal length the row of higher priority. Only a symbol states a priority, 1, which is below all others.
//! Left out: all syntax that those patterns do not use, and what `logos` does otherwise than by the longest match.

use std::ops::Range;

/// The priority of a row that states none; `logos` gives each of them at least 2.
const PRIORITY: u32 = 2;

/// An enum of tokens with its table of patterns.
pub trait Logos: Sized + 'static {
    fn table() -> &'static Table<Self>;

    fn lexer(source: &str) -> Lexer<'_, Self> {
        Lexer {
            table: Self::table(),
            source,
            span: 0..0,
        }
    }
}

/// Makes the enum and its table from the enum's text with the attributes of `logos`.
macro_rules! derive_logos {
    (
        $(#[doc = $doc:literal])*
        #[derive(Logos, $($derive:ident),*)]
        $(#[logos(skip $skip:literal)])*
        enum $Name:ident {
            $(#[$how:ident($($pattern:tt)*)] $Variant:ident $(($payload:ident))?,)*
        }
    ) => {
        $(#[doc = $doc])*
        #[derive($($derive),*)]
        enum $Name {
            $($Variant $(($payload))?,)*
        }

        impl $crate::logos::Logos for $Name {
            fn table() -> &'static $crate::logos::Table<Self> {
                static TABLE: std::sync::OnceLock<$crate::logos::Table<$Name>> =
                    std::sync::OnceLock::new();
                TABLE.get_or_init(|| {
                    $crate::logos::Table::new(vec![
                        $($crate::logos::Row::skip($skip),)*
                        $($crate::logos::row!($Name $Variant $how($($pattern)*)),)*
                    ])
                })
            }
        }
    };
}
pub(crate) use derive_logos;

/// The row of one variant.
macro_rules! row {
    ($Name:ident $Variant:ident token($text:literal)) => {
        $crate::logos::Row::token($text, |_| $Name::$Variant)
    };
    ($Name:ident $Variant:ident regex($regex:literal, priority = $priority:literal, callback = $callback:expr)) => {
        $crate::logos::Row::regex($regex, Some($priority), |lex| {
            $Name::$Variant($crate::logos::call(lex, $callback))
        })
    };
    ($Name:ident $Variant:ident regex($regex:literal, $callback:expr)) => {
        $crate::logos::Row::regex($regex, None, |lex| {
            $Name::$Variant($crate::logos::call(lex, $callback))
        })
    };
}
pub(crate) use row;

/// Calls a callback; it is here so that the callback's argument has a type.
pub fn call<'s, T>(lexer: &Lexer<'s, T>, callback: impl Fn(&Lexer<'s, T>) -> String) -> String {
    callback(lexer)
}

/// Makes the token of a match.
type Make<T> = fn(&Lexer<'_, T>) -> T;

/// A pattern with its priority, and what makes its token; without that it is skipped.
pub struct Row<T: 'static> {
    pattern: Pattern,
    priority: u32,
    make: Option<Make<T>>,
}

impl<T> Row<T> {
    pub fn token(text: &str, make: Make<T>) -> Self {
        Row {
            pattern: Pattern(vec![Part::Text(text.as_bytes().to_vec())]),
            priority: PRIORITY,
            make: Some(make),
        }
    }

    pub fn regex(regex: &str, priority: Option<u32>, make: Make<T>) -> Self {
        Row {
            pattern: Pattern::new(regex),
            priority: priority.unwrap_or(PRIORITY),
            make: Some(make),
        }
    }

    pub fn skip(regex: &str) -> Self {
        Row {
            pattern: Pattern::new(regex),
            priority: PRIORITY,
            make: None,
        }
    }
}

/// The rows, and for each byte those that can begin with it.
pub struct Table<T: 'static> {
    rows: Vec<Row<T>>,
    by_first: Vec<Vec<usize>>,
}

impl<T> Table<T> {
    pub fn new(rows: Vec<Row<T>>) -> Self {
        let by_first = (0..=255)
            .map(|byte| {
                (0..rows.len())
                    .filter(|&row| rows[row].pattern.begins_with(byte))
                    .collect()
            })
            .collect();
        Table { rows, by_first }
    }

    /// The row that wins at the front of the text, which is not empty, and the length of its match.
    fn winner(&self, text: &[u8]) -> Option<(&Row<T>, usize)> {
        let mut best: Option<(&Row<T>, usize)> = None;
        for &row in &self.by_first[usize::from(text[0])] {
            let row = &self.rows[row];
            let Some(len) = row.pattern.longest(text) else {
                continue;
            };
            let wins = match best {
                None => true,
                Some((other, other_len)) => {
                    debug_assert!((len, row.priority) != (other_len, other.priority));
                    (len, row.priority) > (other_len, other.priority)
                }
            };
            if wins {
                best = Some((row, len));
            }
        }
        best
    }
}

/// Gives the tokens of a source one by one, or `Err(())` where nothing matches.
pub struct Lexer<'s, T: 'static> {
    table: &'static Table<T>,
    source: &'s str,
    span: Range<usize>,
}

impl<'s, T> Lexer<'s, T> {
    /// The bytes of the last match, or of the character where nothing matched.
    pub fn span(&self) -> Range<usize> {
        self.span.clone()
    }

    /// The text of the last match.
    pub fn slice(&self) -> &'s str {
        &self.source[self.span.clone()]
    }
}

impl<T> Iterator for Lexer<'_, T> {
    type Item = Result<T, ()>;

    fn next(&mut self) -> Option<Self::Item> {
        loop {
            let start = self.span.end;
            let rest = &self.source[start..];
            let first = rest.chars().next()?;
            let Some((row, len)) = self.table.winner(rest.as_bytes()) else {
                self.span = start..start + first.len_utf8();
                return Some(Err(()));
            };
            self.span = start..start + len;
            if let Some(make) = row.make {
                return Some(Ok(make(self)));
            }
        }
    }
}

/// A compiled pattern: parts that follow each other. Only the last may have a length that varies, so that each part can
/// take all it finds.
struct Pattern(Vec<Part>);

enum Part {
    Text(Vec<u8>),
    Class {
        set: Box<[bool; 256]>,
        least: usize,
        most: usize,
    },
}

impl Pattern {
    /// Compiles characters, escapes, classes with ranges and negation, `+`, `*` and `{n}`. Panics at any other syntax.
    fn new(regex: &str) -> Self {
        let mut parts = Vec::new();
        let mut left = regex.as_bytes();
        while let [first, rest @ ..] = left {
            let set = match first {
                b'[' => {
                    let (set, rest) = class(rest);
                    left = rest;
                    set
                }
                b'\\' => {
                    left = &rest[1..];
                    only(escaped(rest[0]))
                }
                b'.' | b'(' | b')' | b'|' | b'?' | b'^' | b'$' | b'+' | b'*' | b'{' | b'}' => {
                    panic!("no such pattern is used: {regex}")
                }
                byte => {
                    left = rest;
                    only(*byte)
                }
            };
            let (least, most, rest) = times(left);
            left = rest;
            parts.push((set, least, most));
        }
        for (_, least, most) in &parts[..parts.len() - 1] {
            assert_eq!(least, most, "only the last part may vary: {regex}");
        }
        assert!(parts[0].1 > 0, "no empty match: {regex}");
        Pattern(join(parts))
    }

    fn begins_with(&self, byte: u8) -> bool {
        match &self.0[0] {
            Part::Text(text) => text[0] == byte,
            Part::Class { set, .. } => set[usize::from(byte)],
        }
    }

    /// The length of the longest match at the front of the text.
    fn longest(&self, text: &[u8]) -> Option<usize> {
        let mut rest = text;
        for part in &self.0 {
            let len = match part {
                Part::Text(text) => {
                    if !rest.starts_with(text) {
                        return None;
                    }
                    text.len()
                }
                Part::Class { set, least, most } => {
                    let len = rest
                        .iter()
                        .take(*most)
                        .take_while(|byte| set[usize::from(**byte)])
                        .count();
                    if len < *least {
                        return None;
                    }
                    len
                }
            };
            rest = &rest[len..];
        }
        Some(text.len() - rest.len())
    }
}

type Set = Box<[bool; 256]>;

/// The set of one byte.
fn only(byte: u8) -> Set {
    let mut set = Box::new([false; 256]);
    set[usize::from(byte)] = true;
    set
}

/// The byte that an escape stands for.
fn escaped(byte: u8) -> u8 {
    match byte {
        b't' => b'\t',
        b'r' => b'\r',
        b'n' => b'\n',
        b'-' | b'^' => byte,
        _ => panic!("no such escape is used: {}", char::from(byte)),
    }
}

/// The class behind `[`, and what follows its `]`. A negated class takes every byte of a character beyond ASCII, so it
/// takes whole characters.
fn class(text: &[u8]) -> (Set, &[u8]) {
    let mut set = Box::new([false; 256]);
    let negated = text[0] == b'^';
    let mut left = if negated { &text[1..] } else { text };
    while left[0] != b']' {
        let (low, rest) = member(left);
        let (high, rest) = match rest {
            [b'-', rest @ ..] => member(rest),
            _ => (low, rest),
        };
        for byte in low..=high {
            set[usize::from(byte)] = true;
        }
        left = rest;
    }
    if negated {
        for has in set.iter_mut() {
            *has = !*has;
        }
    }
    (set, &left[1..])
}

/// One byte of a class, and what follows it.
fn member(text: &[u8]) -> (u8, &[u8]) {
    match text {
        [b'\\', byte, rest @ ..] => (escaped(*byte), rest),
        [byte, rest @ ..] => (*byte, rest),
        [] => panic!("the class has no end"),
    }
}

/// How often a part stands there, at least and at most, and what follows.
fn times(text: &[u8]) -> (usize, usize, &[u8]) {
    match text {
        [b'+', rest @ ..] => (1, usize::MAX, rest),
        [b'*', rest @ ..] => (0, usize::MAX, rest),
        [b'{', rest @ ..] => {
            let digits = rest.iter().position(|byte| *byte == b'}').expect("a `}`");
            let count = std::str::from_utf8(&rest[..digits])
                .expect("digits")
                .parse()
                .expect("a number");
            (count, count, &rest[digits + 1..])
        }
        _ => (1, 1, text),
    }
}

/// Single bytes that follow each other become one text.
fn join(parts: Vec<(Set, usize, usize)>) -> Vec<Part> {
    let mut joined = Vec::new();
    for (set, least, most) in parts {
        let mut bytes = (0..=255).filter(|byte| set[usize::from(*byte)]);
        match (bytes.next(), bytes.next(), least, most) {
            (Some(byte), None, 1, 1) => match joined.last_mut() {
                Some(Part::Text(text)) => text.push(byte),
                _ => joined.push(Part::Text(vec![byte])),
            },
            _ => joined.push(Part::Class { set, least, most }),
        }
    }
    joined
}

#[cfg(test)]
mod tests {
    use super::Pattern;

    fn longest(regex: &str, text: &str) -> Option<usize> {
        Pattern::new(regex).longest(text.as_bytes())
    }

    #[test]
    fn patterns() {
        assert_eq!(longest(r"[ \t\r\n]+", " \t\r\nx "), Some(4));
        assert_eq!(longest(r"[ \t\r\n]+", "t"), None);
        assert_eq!(longest(r"--[^\n]*", "--"), Some(2));
        assert_eq!(longest(r"--[^\n]*", "--é\u{10ffff}\r\nx"), Some(9));
        assert_eq!(longest(r"2\^[1-9][0-9]*", "2^105x"), Some(5));
        assert_eq!(longest(r"2\^[1-9][0-9]*", "2^05"), None);
        assert_eq!(longest(r"0x[0-9a-f]+", "0x0fg"), Some(4));
        assert_eq!(longest(r"0x[0-9a-f]+", "0xF"), None);
        let symbol = r"[a-zA-Z_\-.'][0-9a-zA-Z_\-.']*";
        assert_eq!(longest(symbol, "-.'_aZ09+"), Some(8));
        assert_eq!(longest(symbol, "9a"), None);
        assert_eq!(longest(symbol, "\\"), None);
        let cmr = r"#[a-fA-F0-9]{64}";
        assert_eq!(longest(cmr, &format!("#{}", "f".repeat(63))), None);
        assert_eq!(longest(cmr, &format!("#{}", "F".repeat(64))), Some(65));
        assert_eq!(longest(cmr, &format!("#{}", "0".repeat(65))), Some(65));
    }
}

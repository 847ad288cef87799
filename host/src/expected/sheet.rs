//! The listing of an answer, as the program prints it.

use std::fmt::Write;

use super::{expected, Expected, ERRORS, NAMES, NODES, WIDTHS};

const JETS_LIMIT: usize = 65_536;

/// The kinds of nodes, from 1 on, as the listing has them.
pub const NODE_WORDS: [&str; 20] = [
    "missing",
    "noexpr",
    "ref",
    "assertl",
    "assertr",
    "iden",
    "unit",
    "injl",
    "injr",
    "take",
    "drop",
    "comp",
    "case",
    "pair",
    "disconnect",
    "witness",
    "hole",
    "fail",
    "jet",
    "word",
];

/// The kinds of errors, from 1 on, as the listing has them.
pub const ERROR_WORDS: [&str; 4] = ["illegal", "repeated", "missing", "incomplete"];

/// The listing that the program prints: the library's, but for a jet list that is too long.
pub fn sheet(source: &[u8], jets: &[u8]) -> String {
    if jets.len() > JETS_LIMIT {
        return "refused jets\n".to_owned();
    }
    listing(source, &expected(source, jets))
}

/// The listing of an answer about a source.
pub fn listing(source: &[u8], e: &Expected) -> String {
    match (e.no, e.value) {
        (0, _) => rows(source, e),
        (no, 0) => format!("refused {no} {}\n", refused_place(source, e)),
        (no, value) => format!("refused {no} {} {value}\n", refused_place(source, e)),
    }
}

/// The rows of a source that is read: its nodes, roots and errors.
fn rows(source: &[u8], e: &Expected) -> String {
    let text = std::str::from_utf8(source).expect("a source that is read is UTF-8");
    let part = |start: u32, len: u32| &text[start as usize..(start + len) as usize];
    let place = |start: u32| printed(oracle::offset_to_position(text, start as usize));
    let mut out = String::new();
    writeln!(out, "nodes {}", e.counts[NODES]).unwrap();
    for (n, number) in e.tables[NODES].chunks(WIDTHS[NODES]).zip(1..) {
        let kind = NODE_WORDS[n[0] as usize - 1];
        let name = match n[2] {
            0 => "-",
            no => {
                let name = &e.tables[NAMES][(no as usize - 1) * WIDTHS[NAMES]..];
                part(name[0], name[1])
            }
        };
        let (at, left, right) = (place(n[1]), n[3], n[4]);
        writeln!(out, "{number} {kind} {name} {at} {left} {right}").unwrap();
    }
    writeln!(out, "roots {}", e.roots.len()).unwrap();
    for root in &e.roots {
        writeln!(out, "{}", root.text).unwrap();
    }
    writeln!(out, "errors {}", e.counts[ERRORS]).unwrap();
    for row in e.tables[ERRORS].chunks(WIDTHS[ERRORS]) {
        let kind = ERROR_WORDS[row[0] as usize - 1];
        writeln!(out, "{kind} {} {}", place(row[1]), part(row[2], row[3])).unwrap();
    }
    out
}

/// The place of a refusal as it prints: the end of source, which only refusals 6 to 13 have as a place, is 0:0.
fn refused_place(source: &[u8], e: &Expected) -> String {
    let place = e.place as usize;
    if e.no >= 6 && place == source.len() {
        return printed((0, 0));
    }
    // the bytes before the place are UTF-8, even if those behind are not
    let before = std::str::from_utf8(&source[..place]).expect("UTF-8 before the place");
    printed(oracle::offset_to_position(before, place))
}

fn printed((line, column): (usize, usize)) -> String {
    format!("{line}:{column}")
}

//! Times the layers of the reader: the text check, places, lexing and parsing.

use crate::files::*;
use crate::timing::{medians, work};
use std::hint::black_box;
use zaghdurem_host::library::{self, Counts, Tables};
use zaghdurem_host::tables::RULES;

const SIZES: [usize; 3] = [1 << 10, 8 << 10, 32 << 10];

/// The words of a token table.
const TABLE: usize = (RULES.records * RULES.token_words) as usize;

/// The words of the four tables of the parser: tokens, lines, expressions, types.
const TABLES: [u32; 4] = [
    RULES.token_words,
    RULES.line_words,
    RULES.expression_words,
    RULES.type_words,
];

/// How many bytes the file of long comments has.
const LONG_COMMENTS: usize = 4 << 10;

/// Prints a line for each text and layer.
pub fn print_lines() {
    for (kind, pattern) in [("ASCII", ASCII), ("mixed", MIXED)] {
        for size in SIZES {
            let text = text_of_length(pattern, size);
            check_line(kind, &text);
            position_line(kind, &text);
        }
    }
    lex_lines();
    parse_lines();
}

/// Times the lexers, and how the library's time grows with the text.
fn lex_lines() {
    println!("lexing: each call of the library clears its table itself, and that is timed with it");
    println!("lexing: the Rust counts line and column from the start for every token");
    println!("lexing: the Rust's tokens come from a stand-in for logos; logos itself is not timed");
    lex_time("dense tokens", DENSE, SIZES[0]);
    for (kind, pattern) in [
        ("program text with long comments", COMMENTED),
        ("program text with long names", LONG_NAMES),
    ] {
        let [_, middle, large] = SIZES.map(|size| lex_time(kind, pattern, size));
        let growth = large / middle;
        println!("the library's time from 8 to 32 KiB of {kind}: {growth:.2} times as long");
    }
}

/// Prints a line about lexing, and gives the library's time.
fn lex_time(kind: &str, pattern: &str, size: usize) -> f64 {
    let text = lines_of_length(pattern, size);
    let mut table = [0; TABLE];
    let tokens = library::lex_all(text.as_bytes(), &mut table).expect("a text that lexes");
    let [library, rust] = medians([
        work(|| library::lex_all(black_box(text.as_bytes()), &mut table)),
        work(|| oracle::lex_all_positions(black_box(&text))),
    ]);
    println!(
        "lex_all against the oracle, {} KiB of {kind}, {tokens} tokens: library {library:.0} ns, {}, \
        Rust {rust:.0} ns, {}, ratio {:.3}",
        size >> 10,
        speed(size, library),
        speed(size, rust),
        library / rust
    );
    library
}

/// Times the parsers on a small file, one of long comments and two full ones, and on lines of jets.
fn parse_lines() {
    println!("parsing: each call of the library clears its four tables itself, and that is timed with it");
    println!("parsing: the Rust counts line and column from the start for every token, and clones tokens");
    for (kind, text) in [
        ("a small file", SMALL.to_owned()),
        (
            "a file of long comments",
            lines_of_length(COMMENTED, LONG_COMMENTS),
        ),
        ("a full file of short lines", short_lines(TOKENS)),
        ("a full file with comments", commented_lines(FULL)),
    ] {
        parse_time(kind, &text, b"", Jets::Kept);
    }
    println!("parsing: the library takes the jet list as bytes; the oracle's stand-in for jets makes a set of it");
    let list = jet_list(USUAL_JET, JET_LIST);
    for jet in ["first", "last"] {
        let text = jet_lines(jet, LINES);
        let kind = format!("the {jet} jet of a list of {JET_LIST} bytes in every line");
        for (made, jets) in [("once", Jets::Kept), ("anew", Jets::Anew)] {
            let kind = format!("{kind}, looked up in a list made {made}");
            parse_time(&kind, &text, &list, jets);
        }
    }
}

/// Whether the oracle's jet list is made for all calls or for each.
#[derive(Clone, Copy)]
enum Jets {
    Kept,
    Anew,
}

/// Prints a line about parsing.
fn parse_time(kind: &str, text: &str, list: &[u8], jets: Jets) {
    let mut tables = tables_of_lines();
    let kept = oracle::Jets::new(list);
    let known = || match jets {
        Jets::Kept => kept.clone(),
        Jets::Anew => oracle::Jets::new(black_box(list)),
    };
    let counts = parse(text, list, &mut tables);
    let [library, rust] = medians([
        work(|| parse(black_box(text), black_box(list), &mut tables)),
        work(|| oracle::parse_lines(black_box(text), &known())),
    ]);
    println!(
        "parse_line_vector against the oracle, {kind}, {} bytes, {} tokens, {} lines: library {library:.0} ns, {}, \
        Rust {rust:.0} ns, {}, ratio {:.3}",
        text.len(),
        counts.tokens,
        counts.lines,
        speed(text.len(), library),
        speed(text.len(), rust),
        library / rust
    );
}

/// The tables of the parser.
fn tables_of_lines() -> [Vec<u32>; 4] {
    TABLES.map(|words| vec![0; (RULES.records * words) as usize])
}

fn parse(text: &str, list: &[u8], tables: &mut [Vec<u32>; 4]) -> Counts {
    let [tokens, lines, expressions, types] = tables;
    let tables = Tables {
        tokens,
        lines,
        expressions,
        types,
    };
    library::parse_line_vector(text.as_bytes(), list, tables).expect("a text that is read")
}

/// Bytes per second, in millions.
fn speed(bytes: usize, nanos: f64) -> String {
    format!("{:.1} million bytes per second", bytes as f64 * 1e3 / nanos)
}

fn check_line(kind: &str, text: &str) {
    let bytes = text.as_bytes();
    let times = medians([
        work(|| library::check_text(black_box(bytes))),
        work(|| std::str::from_utf8(black_box(bytes))),
    ]);
    print_line(
        "check_text against std::str::from_utf8",
        kind,
        text.len(),
        times,
    );
}

fn position_line(kind: &str, text: &str) {
    let times = medians([
        work(|| library::offset_to_position(black_box(text.as_bytes()), text.len())),
        work(|| oracle::offset_to_position(black_box(text), text.len())),
    ]);
    print_line(
        "place of the end against the oracle",
        kind,
        text.len(),
        times,
    );
}

fn print_line(what: &str, kind: &str, length: usize, [library, rust]: [f64; 2]) {
    println!(
        "{what}, {} KiB of {kind} text: library {library:.0} ns, Rust {rust:.0} ns, ratio {:.2}",
        length >> 10,
        library / rust
    );
}

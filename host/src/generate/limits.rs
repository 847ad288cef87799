//! Files about as long as a source may be, in tokens, bytes and names.

use super::files::definition;
use super::layout::{any_style, write_out, Style};
use super::soups::any_token;
use super::{literals, spaced, File, Line, Shape};
use crate::random::Random;

/// The most bytes of a source.
const SOURCE_BYTES: usize = 32_768;

/// A file of 1,023 to 1,026 tokens, sometimes with a byte that is no token near its end.
pub fn token_limit(random: &mut Random) -> File {
    let count = random.between(1023, 1026);
    let lines = match random.below(6) {
        0..=1 => exact_lines(random, count, 3),
        2..=3 => exact_lines(random, count, 40),
        4 => vec![type_series(random, count)],
        _ => vec![(0..count).map(|_| any_token(random)).collect()],
    };
    let mut source = write_out(&lines, Style::Plain, random);
    match random.below(8) {
        0 => source.extend_from_slice(b" @"),
        1 => put_before_last_token(&mut source, b"@ "),
        2 => source.extend_from_slice(b"--"),
        3 => source.extend_from_slice(b" \t\r\n"),
        _ => {}
    }
    File {
        shape: Shape::TokenLimit,
        source,
        jets: Vec::new(),
    }
}

/// A file of 32,766 to 32,770 bytes, or of far more.
pub fn byte_limit(random: &mut Random) -> File {
    let length = if random.chance(1, 8) {
        *random.pick(&[33_000, 65_535, 65_536, 65_537])
    } else {
        random.between(SOURCE_BYTES - 2, SOURCE_BYTES + 2)
    };
    let mut source = b"main := pair a iden\na := unit\n".to_vec();
    padding(&mut source, length, random);
    if random.chance(1, 6) {
        source[length - 1] = *random.pick(b"@\xff\x80\xc3");
    }
    File {
        shape: Shape::ByteLimit,
        source,
        jets: Vec::new(),
    }
}

/// Names that each use the next one, and what the last one uses.
pub fn name_series(random: &mut Random) -> File {
    let link = *random.pick(&[
        "next",
        "next",
        "next",
        "( next )",
        "injl next",
        "pair next next",
        "assertl next #{ next }",
        "assertr # next",
        "case next before",
        "comp unit next",
        "assertl unit #{ next }",
    ]);
    let most = 1024 / (spaced(link).len() + 2);
    let count = match random.below(8) {
        0..=2 => random.between(1, 6),
        3..=5 => random.between(7, 60.min(most)),
        6 => random.between(2, most),
        _ => random.between(most - 1, most + 1),
    };
    let mut lines: Vec<Line> = (1..count)
        .map(|number| link_line(random, link, number))
        .collect();
    lines.push(last_line(random, count));
    match random.below(3) {
        0 => {}
        1 => lines.reverse(),
        _ => random.shuffle(&mut lines),
    }
    let style = any_style(random);
    File {
        shape: Shape::NameSeries,
        source: write_out(&lines, style, random),
        jets: Vec::new(),
    }
}

/// Lines of `count` tokens in all, at least 3, each of at most `most` where that can be.
fn exact_lines(random: &mut Random, count: usize, most: usize) -> Vec<Line> {
    let (mut lines, mut left) = (Vec::new(), count);
    while left >= 6 {
        let size = random.between(3, most.min(left - 3));
        lines.push(exact_line(random, lines.len(), size));
        left -= size;
    }
    lines.push(exact_line(random, lines.len(), left));
    lines
}

/// A line of exactly `size` tokens, at least 3.
fn exact_line(random: &mut Random, number: usize, size: usize) -> Line {
    let number = if random.chance(1, 32) {
        random.below(number + 1)
    } else {
        number
    };
    let mut body: Line = (3..size)
        .map(|_| random.text(&["injl", "injr", "take", "drop"]))
        .collect();
    body.push(match random.below(4) {
        0..=1 => name(random.below(341)),
        2 => "unit".to_owned(),
        _ => "witness".to_owned(),
    });
    definition(&name(number), body)
}

/// A type line of `count` tokens, as far as its operators allow.
fn type_series(random: &mut Random, count: usize) -> Line {
    let mut line = spaced("a : _ -> 1");
    while line.len() + 2 <= count {
        line.push(random.text(&["+", "*"]));
        line.push(random.text(&["1", "2", "x", "2^8"]));
    }
    if line.len() < count {
        line.push("b".to_owned());
    }
    line
}

fn put_before_last_token(source: &mut Vec<u8>, piece: &[u8]) {
    let end = source.trim_ascii_end().len();
    let at = source[..end]
        .iter()
        .rposition(|&byte| byte == b' ')
        .map_or(0, |space| space + 1);
    source.splice(at..at, piece.iter().copied());
}

/// Fills a source up to `length` bytes with one long thing.
fn padding(source: &mut Vec<u8>, length: usize, random: &mut Random) {
    let (front, fill): (&str, &str) = *random.pick(&[
        ("--", "c"),
        ("--", "\u{e9}"),
        ("-- ", "\u{1f980}"),
        ("", " "),
        ("", "\n"),
        ("", "\r\n"),
        ("b := ", "n"),
        ("b := const 0x", "0"),
        ("b := fail 0b", "1"),
        ("b : 1 -> 2^1", "0"),
        ("", "-- line\n"),
    ]);
    source.extend_from_slice(front.as_bytes());
    while source.len() + fill.len() <= length {
        source.extend_from_slice(fill.as_bytes());
    }
    let last = *fill.as_bytes().last().unwrap_or(&b' ');
    source.resize(length, if last.is_ascii() { last } else { b'c' });
}

/// Line `number` of a series.
fn link_line(random: &mut Random, link: &str, number: usize) -> Line {
    let mut body = Line::new();
    for token in link.split(' ') {
        body.push(match token {
            "next" => name(number + 1),
            "before" => name(number.saturating_sub(1)),
            "#" => literals::cmr(random),
            other => other.to_owned(),
        });
    }
    definition(&name(number), body)
}

/// The last line of a series: it ends, is missing, incomplete, or leads back.
fn last_line(random: &mut Random, count: usize) -> Line {
    let own = name(count);
    match random.below(8) {
        0..=2 => definition(&own, spaced("unit")),
        3 => definition(&own, spaced("nosuch")),
        4 => definition(&own, vec![name(1)]),
        5 => definition(&own, vec![name(random.between(1, count))]),
        6 => spaced(&format!("{own} : 1 -> 1")),
        _ => spaced("stray := witness"),
    }
}

fn name(number: usize) -> String {
    format!("n{number}")
}

//! Writing tokens out as text, with much, little or no white space.

use super::vocabulary::{BLANKS, COMMENTS};
use super::Line;
use crate::random::Random;

/// How the tokens of a file are set apart.
#[derive(Clone, Copy, Debug, PartialEq, Eq)]
pub enum Style {
    /// One space between tokens, one line each.
    Plain,
    /// White space only where two tokens would otherwise become one.
    Tight,
    /// All kinds of white space and comments anywhere, also none where it may be left out.
    Wild,
}

/// Any style, plain ones most often.
pub fn any_style(random: &mut Random) -> Style {
    match random.below(8) {
        0..=3 => Style::Plain,
        4..=5 => Style::Tight,
        _ => Style::Wild,
    }
}

/// The lines written out in this style.
pub fn write_out(lines: &[Line], style: Style, random: &mut Random) -> Vec<u8> {
    let mut out = Vec::new();
    let mut last = "";
    for line in lines {
        for (number, token) in line.iter().enumerate() {
            gap(&mut out, last, number == 0, token, style, random);
            out.extend_from_slice(token.as_bytes());
            last = token;
        }
    }
    close(&mut out, last, style, random);
    out
}

/// What stands between the token before and the next one.
fn gap(
    out: &mut Vec<u8>,
    last: &str,
    starts_line: bool,
    next: &str,
    style: Style,
    random: &mut Random,
) {
    let before = out.len();
    match style {
        Style::Plain if last.is_empty() => {}
        Style::Plain => out.push(if starts_line { b'\n' } else { b' ' }),
        Style::Tight => {}
        Style::Wild => blanks(out, last, random),
    }
    if out.len() == before && joins(last, next) {
        out.push(*random.pick(b" \n"));
    }
}

/// The end of the file: a line feed, nothing, or a comment that may lack its line feed.
fn close(out: &mut Vec<u8>, last: &str, style: Style, random: &mut Random) {
    match style {
        Style::Plain => {
            if random.chance(7, 8) {
                out.push(b'\n');
            }
        }
        Style::Tight => {}
        Style::Wild => {
            blanks(out, last, random);
            if random.chance(1, 4) {
                out.extend_from_slice(b" --");
                out.extend_from_slice(random.pick(&COMMENTS).as_bytes());
            }
        }
    }
}

/// Some white space, perhaps none, perhaps with comments in it.
fn blanks(out: &mut Vec<u8>, last: &str, random: &mut Random) {
    let before = out.len();
    for _ in 0..random.below(4) {
        if random.chance(1, 8) {
            if out.len() == before && joins(last, "--") {
                out.push(b' ');
            }
            comment(out, random);
        } else {
            out.extend_from_slice(random.pick(&BLANKS).as_bytes());
        }
    }
}

/// A comment with its line feed.
fn comment(out: &mut Vec<u8>, random: &mut Random) {
    out.extend_from_slice(b"--");
    out.extend_from_slice(random.pick(&COMMENTS).as_bytes());
    out.push(b'\n');
}

/// Whether two texts without white space between them would be read as other tokens.
pub fn joins(left: &str, right: &str) -> bool {
    let (Some(&first), Some(&next)) = (left.as_bytes().first(), right.as_bytes().first()) else {
        return false;
    };
    if left.starts_with("2^") {
        next.is_ascii_digit()
    } else if left.starts_with("0b") {
        matches!(next, b'0' | b'1')
    } else if left.starts_with("0x") {
        matches!(next, b'0'..=b'9' | b'a'..=b'f')
    } else {
        left != "->" && starts_symbol(first) && continues_symbol(next)
    }
}

fn starts_symbol(byte: u8) -> bool {
    byte.is_ascii_alphabetic() || matches!(byte, b'_' | b'-' | b'.' | b'\'')
}

fn continues_symbol(byte: u8) -> bool {
    starts_symbol(byte) || byte.is_ascii_digit()
}

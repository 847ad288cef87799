//! Good files with something changed, by tokens or by bytes.

use super::files::{good_lines, written};
use super::soups::any_token;
use super::vocabulary::SOUP_BYTES;
use super::{examples, jets, literal_edges, name_series, sound, type_edges, unsound};
use super::{File, Line, Shape};
use crate::random::Random;

/// Characters of two, three and four bytes at the edges of their ranges, as in RFC 3629.
const CHARACTERS: [&str; 10] = [
    "\u{80}",
    "\u{e9}",
    "\u{7ff}",
    "\u{800}",
    "\u{d7ff}",
    "\u{e000}",
    "\u{fffd}",
    "\u{ffff}",
    "\u{10000}",
    "\u{10ffff}",
];

/// Sequences that are no character: cut short, too long for their value, surrogates, too large.
pub const ILL_FORMED: [&[u8]; 18] = [
    b"\x80",
    b"\xbf",
    b"\xc2",
    b"\xc0\x80",
    b"\xc1\xbf",
    b"\xe0\x80\x80",
    b"\xe0\x9f\xbf",
    b"\xe2\x82",
    b"\xed\xa0\x80",
    b"\xed\xbf\xbf",
    b"\xef\xbf",
    b"\xf0\x80\x80\x80",
    b"\xf0\x8f\xbf\xbf",
    b"\xf0\x9f\xa6",
    b"\xf4\x90\x80\x80",
    b"\xf5\x80\x80\x80",
    b"\xfe",
    b"\xff",
];

/// A good file with one to four changes to its bytes, sometimes to its jet list.
pub fn damaged(random: &mut Random) -> File {
    let mut file = match random.below(8) {
        0..=2 => sound(random),
        3..=4 => unsound(random),
        5 => literal_edges(random),
        6 => type_edges(random),
        _ => name_series(random),
    };
    file.shape = Shape::Damaged;
    for _ in 0..random.between(1, 4) {
        damage_bytes(&mut file.source, random);
    }
    if random.chance(1, 8) {
        damage_bytes(&mut file.jets, random);
    }
    file
}

/// A grammatical file with one to three changes to its tokens.
pub fn misplaced_token(random: &mut Random) -> File {
    let (mut lines, jets) = if random.chance(1, 4) {
        (vec![examples::tokens(random)], jets::plain_list(random))
    } else {
        good_lines(random)
    };
    for _ in 0..random.between(1, 3) {
        let number = random.below(lines.len());
        damage_line(&mut lines[number], random);
    }
    written(Shape::MisplacedToken, &lines, jets, random)
}

/// One change to the tokens of a line.
fn damage_line(line: &mut Line, random: &mut Random) {
    if line.is_empty() {
        return line.push(any_token(random));
    }
    let at = random.below(line.len());
    match random.below(6) {
        0 => drop(line.remove(at)),
        1 => line.insert(at, line[at].clone()),
        2 => line[at] = any_token(random),
        3 => line.insert(at, any_token(random)),
        4 => line.truncate(at),
        _ => {
            let other = random.below(line.len());
            line.swap(at, other);
        }
    }
}

/// One change to the bytes: a byte changed, removed, doubled or put in, a piece
/// cut out or moved, a character or an ill-formed sequence put in, or the end cut off.
pub fn damage_bytes(bytes: &mut Vec<u8>, random: &mut Random) {
    if bytes.is_empty() {
        return bytes.push(*random.pick(SOUP_BYTES));
    }
    let at = random.below(bytes.len());
    match random.below(10) {
        0 => bytes[at] = *random.pick(SOUP_BYTES),
        1 => bytes[at] = random.byte(),
        2 => drop(bytes.remove(at)),
        3 => bytes.insert(at, bytes[at]),
        4 => bytes.insert(at, *random.pick(SOUP_BYTES)),
        5 => cut_piece(bytes, at, random),
        6 => move_piece(bytes, at, random),
        7 => put_in(bytes, at, random.pick(&CHARACTERS).as_bytes()),
        8 => put_in(bytes, at, random.pick::<&[u8]>(&ILL_FORMED)),
        _ => bytes.truncate(at),
    }
}

fn cut_piece(bytes: &mut Vec<u8>, at: usize, random: &mut Random) {
    let end = random.between(at, bytes.len().min(at + 20));
    bytes.drain(at..end);
}

fn move_piece(bytes: &mut Vec<u8>, at: usize, random: &mut Random) {
    let end = random.between(at, bytes.len().min(at + 20));
    let piece: Vec<u8> = bytes.drain(at..end).collect();
    let to = random.between(0, bytes.len());
    put_in(bytes, to, &piece);
}

fn put_in(bytes: &mut Vec<u8>, at: usize, piece: &[u8]) {
    bytes.splice(at..at, piece.iter().copied());
}

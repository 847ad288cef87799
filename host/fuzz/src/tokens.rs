//! Changes to the tokens and the lines of an input. Most changes to bytes end in refusals 3 and 4; these reach what stands
//! behind the lexer, and those to lines what stands behind the parser.

use crate::parted;
use std::ops::Range;
use zaghdurem_host::generate::any_token;
use zaghdurem_host::random::Random;

/// The most pieces that are copied or taken out at once.
const RUN: usize = 6;

/// How often a piece of the same kind is looked for.
const TRIES: usize = 8;

/// The kind of the token `:=`.
const ASSIGN: u32 = 1;

/// A part of a source that begins with a token: up to the next, or up to that of the next line.
#[derive(Clone)]
struct Piece {
    /// Its token's kind; 0 for a line.
    kind: u32,
    text: Vec<u8>,
}

/// An input with one or two changes to the tokens or to the lines of its source; its jet list stays.
pub fn changed(input: &[u8], random: &mut Random) -> Vec<u8> {
    let (_, source) = parted(input);
    let mut pieces = if random.chance(1, 2) {
        cut(source, &tokens(source))
    } else {
        cut(source, &lines(&tokens(source)))
    };
    for _ in 0..random.between(1, 2) {
        change(&mut pieces, random);
    }
    let mut changed = input[..input.len() - source.len()].to_vec();
    changed.extend(pieces.into_iter().flat_map(|piece| piece.text));
    changed
}

/// Kind and start of each token before the first byte that cannot be lexed.
fn tokens(source: &[u8]) -> Vec<(u32, usize)> {
    let valid = source.utf8_chunks().next();
    let lexed = oracle::lex(valid.map_or("", |chunk| chunk.valid()));
    let tokens = lexed.tokens.iter();
    tokens.map(|token| (token.kind, token.start)).collect()
}

/// Where lines begin: a token before `:=`.
fn lines(tokens: &[(u32, usize)]) -> Vec<(u32, usize)> {
    let pairs = tokens.windows(2).filter(|pair| pair[1].0 == ASSIGN);
    pairs.map(|pair| (0, pair[0].1)).collect()
}

/// The source, cut before each of these places but the first; no piece if there is no place.
fn cut(source: &[u8], places: &[(u32, usize)]) -> Vec<Piece> {
    let ends = places.iter().skip(1).map(|(_, start)| *start);
    let mut begun = 0;
    let pieces = places.iter().zip(ends.chain([source.len()]));
    let piece = |(&(kind, _), end): (&(u32, usize), usize)| Piece {
        kind,
        text: source[std::mem::replace(&mut begun, end)..end].to_vec(),
    };
    pieces.map(piece).collect()
}

/// One change: pieces taken out, copied to another place or over one of the same kind, two of the same kind in each other's
/// place, or a token made anew.
fn change(pieces: &mut Vec<Piece>, random: &mut Random) {
    if pieces.is_empty() {
        return pieces.push(any_piece(random));
    }
    let at = random.below(pieces.len());
    let other = alike(pieces, at, random);
    match random.below(8) {
        0 => drop(pieces.drain(run(at, pieces.len(), random))),
        1 => pieces[at] = any_piece(random),
        2 => pieces.insert(at, any_piece(random)),
        3 => {
            let run = run(random.below(pieces.len()), pieces.len(), random);
            let copies: Vec<Piece> = pieces[run].iter().map(apart).collect();
            drop(pieces.splice(at..at, copies));
        }
        4 | 5 => pieces[at] = apart(&pieces[other]),
        _ => pieces.swap(at, other),
    }
}

/// A piece of the same kind, if one is soon found, or this one.
fn alike(pieces: &[Piece], at: usize, random: &mut Random) -> usize {
    let mut others = (0..TRIES).map(|_| random.below(pieces.len()));
    others
        .find(|&other| other != at && pieces[other].kind == pieces[at].kind)
        .unwrap_or(at)
}

/// This place and some behind it, of so many in all.
fn run(at: usize, count: usize, random: &mut Random) -> Range<usize> {
    at..random.between(at + 1, count.min(at + RUN))
}

fn any_piece(random: &mut Random) -> Piece {
    apart(&Piece {
        kind: 0,
        text: any_token(random).into_bytes(),
    })
}

/// A copy of a piece with white space at its end, so that it is not one token with what follows.
fn apart(piece: &Piece) -> Piece {
    let mut piece = piece.clone();
    if !piece.text.last().is_some_and(u8::is_ascii_whitespace) {
        piece.text.push(b' ');
    }
    piece
}

#[cfg(test)]
mod tests {
    use super::*;

    #[test]
    fn pieces_make_up_the_source() {
        for (source, counts) in [
            (&b"a:=unit -- c\n b := a"[..], [6, 2]),
            (b"-- c\na % b", [1, 0]),
            (b"a := b\xff := c", [3, 1]),
            (b" -- c", [0, 0]),
        ] {
            let tokens = tokens(source);
            let cuts = [cut(source, &tokens), cut(source, &lines(&tokens))];
            assert_eq!(cuts.each_ref().map(Vec::len), counts);
            for pieces in cuts.into_iter().filter(|pieces| !pieces.is_empty()) {
                let texts = pieces.into_iter().map(|piece| piece.text);
                assert_eq!(texts.collect::<Vec<_>>().concat(), source);
            }
        }
    }

    #[test]
    fn changes_keep_the_jet_list_and_nearly_always_lex() {
        let input = b"add\0a := pair b (take unit) : 1 -> 2^4 -- c\nb := jet_add";
        let (mut random, mut lexed) = (Random::new(1), 0);
        for _ in 0..1_000 {
            let changed = changed(input, &mut random);
            let (jets, source) = parted(&changed);
            assert_eq!(jets, b"add");
            let text = std::str::from_utf8(source).expect("no byte is changed");
            lexed += usize::from(oracle::lex(text).bad.is_none());
        }
        assert!(lexed > 900, "{lexed}");
    }
}

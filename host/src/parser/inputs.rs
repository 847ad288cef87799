//! The parts of the comparison of parsers, and the files that are generated for it.

use super::lent::{ROOM, WORDS};
use super::{depths, exact, grammatical, jets, limits, literals, numbers, tokens};
use super::{Comparison, List};
use crate::generate::{byte_soup, damage_bytes, generate, token_soup};
use crate::random::Random;
use crate::run::{Part, Piece};

/// The parts. Those that take longest come first, so that no core is left with one of them at the end.
pub const PARTS: [Part<Comparison>; 20] = [
    part(
        "parser, generated files, whole and damaged",
        16,
        generated_files,
    ),
    part(
        "parser, all short series of tokens",
        16,
        exact::short_series,
    ),
    part(
        "parser, all short expressions",
        8,
        grammatical::all_expressions,
    ),
    part("parser, all short types", 8, grammatical::all_types),
    part(
        "parser, files with one token changed to every kind",
        8,
        tokens::changed,
    ),
    part("parser, files cut at every token", 8, tokens::cut),
    part(
        "parser, every form of nesting about 128 deep",
        8,
        depths::each_form,
    ),
    part("parser, two forms of nesting in turn", 4, depths::two_forms),
    part("parser, soups of tokens and of bytes", 8, soups),
    part(
        "parser, literals of every telling length",
        8,
        numbers::literals,
    ),
    part("parser, exponents", 4, numbers::exponents),
    part(
        "parser, jets by lists picked by hand",
        2,
        jets::picked_lists,
    ),
    part("parser, jets by all short lists", 4, jets::short_lists),
    part(
        "parser, 340 jets and lists of 65,536 bytes",
        4,
        jets::full_files,
    ),
    part("parser, two refusals in one file", 2, limits::two_refusals),
    part("parser, about 1,024 tokens", 4, limits::full_tables),
    part("parser, about 32,768 bytes", 4, limits::byte_counts),
    part("parser, tables of many lengths", 4, limits::table_lengths),
    part(
        "parser, all spans of short texts",
        4,
        literals::spans_of_short_texts,
    ),
    part("parser, spans of generated files", 4, literals::any_spans),
];

const fn part(
    name: &'static str,
    pieces: usize,
    compare: fn(&Piece, &mut Comparison),
) -> Part<Comparison> {
    Part {
        name,
        pieces,
        compare,
    }
}

/// Files of every family and a damaged copy of each; some also with tables just long enough, and with one too short.
fn generated_files(piece: &Piece, comparison: &mut Comparison) {
    let mut random = Random::new(piece.seed(0x9A25));
    for _ in 0..piece.share(piece.scale.count) {
        let file = generate(&mut random);
        comparison.files[file.shape as usize] += 1;
        let (mut source, list) = (file.source, List::new(&file.jets));
        let mut lents = vec![ROOM];
        if random.chance(1, 8) {
            let mut short = WORDS;
            let table = random.below(short.len());
            short[table] = random.below(WORDS[table]);
            lents.extend([WORDS, short]);
        }
        comparison.compare_lent(&source, &list, &lents);
        damage_bytes(&mut source, &mut random);
        comparison.compare(&source, &list);
    }
}

fn soups(piece: &Piece, comparison: &mut Comparison) {
    let mut random = Random::new(piece.seed(0x5009));
    for _ in 0..piece.share(piece.scale.count) {
        for file in [token_soup(&mut random), byte_soup(&mut random)] {
            comparison.compare(&file.source, &List::new(&file.jets));
        }
    }
}

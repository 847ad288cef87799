//! The parts of the comparison of readers, and the files that are generated for it.

use super::lent::{ROOM, WORDS};
use super::{chains, graphs, limits, lines, orders, shapes, Comparison};
use crate::generate::{damage_bytes, generate, Shape};
use crate::list::List;
use crate::random::Random;
use crate::run::{Part, Piece};

/// The parts. Those that take longest come first, so that no core is left with one of them at the end.
pub const PARTS: [Part<Comparison>; 16] = [
    part("reader, generated files, whole and damaged", 16, any_files),
    part(
        "reader, sound, unsound and long generated files",
        16,
        named_files,
    ),
    part("reader, all graphs of three names", 16, graphs::three_names),
    part("reader, graphs of four names", 16, graphs::four_names),
    part("reader, chains of up to 341 names", 16, chains::chains),
    part(
        "reader, all short expressions over three names",
        8,
        graphs::expressions,
    ),
    part("reader, all orders of lines", 8, orders::all_orders),
    part(
        "reader, illegal, repeated and typed lines in all mixes",
        8,
        lines::mixes,
    ),
    part("reader, names of nearly the same text", 8, lines::texts),
    part("reader, long names", 4, lines::long_names),
    part("reader, names under many levels", 9, shapes::deep),
    part(
        "reader, names that use many and many that use one",
        7,
        shapes::wide,
    ),
    part("reader, about 1,024 tokens", 8, limits::full_tables),
    part("reader, about 32,768 bytes", 5, limits::byte_counts),
    part("reader, two answers in one file", 4, limits::two_answers),
    part("reader, tables of many lengths", 4, limits::table_lengths),
];

const fn part(
    name: &'static str,
    pieces: usize,
    compare: fn(&Piece, &mut Comparison),
) -> Part<Comparison> {
    Part {
        name,
        pieces,
        compare,
    }
}

/// Files of every family and a damaged copy of each.
fn any_files(piece: &Piece, comparison: &mut Comparison) {
    let mut random = Random::new(piece.seed(0x9A26));
    for _ in 0..piece.share(piece.scale.count) {
        any_file(&mut random, comparison, |_, _| true);
    }
}

/// Makes a file of any family and a damaged copy of it, and compares those that are wanted; some also with tables just
/// long enough, and with one too short.
pub(super) fn any_file(
    random: &mut Random,
    comparison: &mut Comparison,
    mut wanted: impl FnMut(&[u8], &List) -> bool,
) {
    let file = generate(random);
    comparison.met.made[file.shape as usize] += 1;
    let (mut source, list) = (file.source, List::new(&file.jets));
    let mut lents = vec![ROOM];
    if random.chance(1, 8) {
        let mut short = WORDS;
        let table = random.below(short.len());
        short[table] = random.below(WORDS[table]);
        lents.extend([WORDS, short]);
    }
    if wanted(&source, &list) {
        comparison.compare_lent(&source, &list, &lents);
    }
    damage_bytes(&mut source, random);
    if wanted(&source, &list) {
        comparison.compare(&source, &list);
    }
}

/// Files of the families that are read to the end.
fn named_files(piece: &Piece, comparison: &mut Comparison) {
    let mut random = Random::new(piece.seed(0x50FD));
    for _ in 0..piece.share(piece.scale.count) {
        let shape = match random.below(8) {
            0..=2 => Shape::Sound,
            3..=6 => Shape::Unsound,
            _ => Shape::NameSeries,
        };
        let file = shape.make(&mut random);
        comparison.met.made[file.shape as usize] += 1;
        comparison.compare(&file.source, &List::new(&file.jets));
    }
}

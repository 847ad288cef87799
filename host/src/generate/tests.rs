//! What the families promise.

use super::recogniser::{outcome, Outcome};
use super::{generate, File, Shape};
use crate::random::Random;
use std::collections::{BTreeMap, BTreeSet};

/// Files of one family.
fn files(shape: Shape, count: usize) -> Vec<File> {
    let mut random = Random::new(11);
    (0..count).map(|_| shape.make(&mut random)).collect()
}

/// How often each refusal is met among files; 0 stands for accepted.
fn refusals(files: &[File]) -> BTreeMap<u32, usize> {
    let mut counts = BTreeMap::new();
    for file in files {
        *counts.entry(read(file).err().unwrap_or(0)).or_insert(0) += 1;
    }
    counts
}

fn read(file: &File) -> Outcome {
    outcome(&file.source, &file.jets)
}

/// Whether each of these refusals (0: none) is met.
fn meets(shape: Shape, wanted: &[u32]) -> bool {
    let counts = refusals(&files(shape, 3000));
    wanted.iter().all(|no| counts.contains_key(no))
}

#[test]
fn the_same_seed_gives_the_same_files() {
    let (mut one, mut two) = (Random::new(5), Random::new(5));
    assert!((0..300).all(|_| generate(&mut one) == generate(&mut two)));
}

#[test]
fn other_seeds_give_other_files() {
    let (mut one, mut two) = (Random::new(5), Random::new(6));
    let same = (0..300)
        .filter(|_| generate(&mut one) == generate(&mut two))
        .count();
    assert!(same < 30, "{same} of 300 files are the same");
}

#[test]
fn every_family_is_made() {
    let mut random = Random::new(2);
    let made: Vec<Shape> = (0..3000).map(|_| generate(&mut random).shape).collect();
    for shape in Shape::ALL {
        assert!(made.contains(&shape), "{shape:?}");
    }
}

#[test]
fn a_family_makes_files_of_its_own_shape() {
    let mut random = Random::new(3);
    for (number, shape) in Shape::ALL.into_iter().enumerate() {
        assert_eq!(shape as usize, number);
        assert!((0..20).all(|_| shape.make(&mut random).shape == shape));
    }
}

#[test]
fn sound_and_unsound_files_are_not_refused() {
    for shape in [Shape::Sound, Shape::Unsound] {
        for file in files(shape, 3000) {
            let outcome = read(&file);
            assert!(
                outcome.is_ok(),
                "{shape:?} {outcome:?}: {}",
                file.source.escape_ascii()
            );
        }
    }
}

#[test]
fn sound_files_are_mostly_small_and_sometimes_full() {
    let sizes: Vec<usize> = files(Shape::Sound, 2000)
        .iter()
        .map(|file| read(file).unwrap().tokens)
        .collect();
    assert!(sizes.iter().filter(|&&tokens| tokens <= 300).count() > 1600);
    assert!(sizes.iter().any(|&tokens| tokens > 1000));
    assert!(sizes.iter().any(|&tokens| tokens < 10));
}

#[test]
fn every_keyword_and_kind_of_white_space_is_written() {
    let all: Vec<u8> = files(Shape::Sound, 200)
        .into_iter()
        .flat_map(|file| file.source)
        .collect();
    let text = String::from_utf8(all).unwrap();
    for keyword in super::vocabulary::KEYWORDS
        .iter()
        .chain(&["?", "jet_", "#{", "\t", "\r", "--"])
    {
        assert!(text.contains(keyword), "{keyword}");
    }
}

#[test]
fn edges_are_met_on_both_sides() {
    assert!(meets(Shape::LiteralEdges, &[0, 7, 8, 9]));
    assert!(meets(Shape::JetEdges, &[0, 10]));
    assert!(meets(Shape::TypeEdges, &[0, 11, 12]));
    assert!(meets(Shape::Example, &[0, 4, 6, 7, 8, 9, 10, 11, 12]));
    assert!(meets(Shape::MisplacedToken, &[0, 6]));
    assert!(meets(Shape::Damaged, &[0, 3, 4, 6]));
    assert!(meets(Shape::TokenSoup, &[0, 4, 6]));
    assert!(meets(Shape::ByteSoup, &[0, 3, 4, 6]));
    assert!(meets(Shape::TokenLimit, &[0, 4, 5, 6]));
    assert!(meets(Shape::DepthLimit, &[0, 6, 13]));
    assert!(meets(Shape::ByteLimit, &[0, 2, 3, 4]));
    assert!(meets(Shape::NameSeries, &[0, 5]));
}

#[test]
fn accepted_files_reach_the_limits_of_tokens_and_depth() {
    let tokens: Vec<Outcome> = files(Shape::TokenLimit, 1000).iter().map(read).collect();
    for count in [1023, 1024] {
        assert!(tokens.iter().flatten().any(|size| size.tokens == count));
    }
    let depths: Vec<Outcome> = files(Shape::DepthLimit, 1000).iter().map(read).collect();
    for depth in [126, 127, 128] {
        assert!(depths.iter().flatten().any(|size| size.depth == depth));
    }
}

#[test]
fn files_about_the_byte_limit_have_every_length_about_it() {
    let made = files(Shape::ByteLimit, 500);
    for length in 32_766..=32_770 {
        assert!(
            made.iter().any(|file| file.source.len() == length),
            "{length}"
        );
    }
}

/// What the Rust reads from a file that it accepts.
fn reading(file: &File) -> oracle::Reading {
    let source = std::str::from_utf8(&file.source).unwrap();
    oracle::read(source, &file.jets).unwrap()
}

/// The kinds of the nodes of some files, each once.
fn node_kinds(files: &[File]) -> BTreeSet<u32> {
    let nodes = files.iter().flat_map(|file| reading(file).nodes);
    nodes.map(|node| node.kind).collect()
}

#[test]
fn sound_files_have_no_errors_and_nodes_of_all_eighteen_kinds() {
    let files = files(Shape::Sound, 600);
    assert!(files.iter().all(|file| reading(file).reported.is_empty()));
    assert_eq!(node_kinds(&files), (3..=20).collect());
}

#[test]
fn unsound_files_have_errors_and_nodes_of_all_kinds() {
    let files = files(Shape::Unsound, 600);
    let errors = files.iter().flat_map(|file| reading(file).reported);
    let kinds: BTreeSet<u32> = errors.map(|error| error.kind).collect();
    assert_eq!(kinds, (1..=4).collect());
    assert_eq!(node_kinds(&files), (1..=20).collect());
}

/// Whether a use of a name with a legal line is missing, so that the name leads back to it.
fn has_loop(reading: &oracle::Reading) -> bool {
    let legal: BTreeSet<&str> = reading
        .names
        .iter()
        .map(|name| name.text.as_str())
        .collect();
    let mut errors = reading.step3_errors.iter();
    errors.any(|error| error.kind == 3 && legal.contains(error.name.as_str()))
}

#[test]
fn unsound_files_have_loops() {
    for shape in [Shape::Unsound, Shape::NameSeries] {
        let mut files = files(shape, 600);
        files.retain(|file| read(file).is_ok());
        let loops = files.iter().filter(|file| has_loop(&reading(file))).count();
        assert!(loops > 60, "{shape:?}: {loops}");
    }
}

#[test]
fn the_rust_refuses_as_the_rules_do() {
    let mut random = Random::new(17);
    for _ in 0..3000 {
        let file = generate(&mut random);
        let expected = read(&file).err().unwrap_or(0);
        // The Rust takes text only and has no limits.
        if matches!(expected, 2 | 3 | 5 | 13) {
            continue;
        }
        let source = std::str::from_utf8(&file.source).unwrap();
        let refused = oracle::with_stack(|| oracle::read(source, &file.jets).err());
        let no = refused.map_or(0, |refusal| refusal.no);
        assert_eq!(no, expected, "{}", file.source.escape_ascii());
    }
}

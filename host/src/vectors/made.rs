//! Small files that the generator makes.

use super::Case;
use crate::generate::{generate, File, Shape};
use crate::random::Random;
use std::collections::HashSet;

/// The seed of the generated files.
pub const SEED: u64 = 1;

const COUNT: usize = 130;

/// The most bytes of a source that is taken.
const MOST_BYTES: usize = 700;

/// The first files of the seed that are small and not empty, each once.
pub fn cases() -> Vec<Case> {
    let mut random = Random::new(SEED);
    let mut seen = HashSet::new();
    let files = std::iter::repeat_with(|| generate(&mut random));
    files
        .filter(|file| wanted(file) && seen.insert(file.source.clone()))
        .take(COUNT)
        .map(|file| Case::new(format!("made: {:?}", file.shape), file.source).with_jets(file.jets))
        .collect()
}

/// The examples are among the cases picked by hand.
fn wanted(file: &File) -> bool {
    let length = file.source.len();
    file.shape != Shape::Example && length > 0 && length <= MOST_BYTES
}

//! Many files that all differ: whole and damaged ones of every family, each compared once.

use std::collections::HashSet;
use std::hash::{DefaultHasher, Hash, Hasher};
use std::sync::{Arc, Mutex};

use super::inputs::any_file;
use super::{Callee, Comparison};
use crate::list::List;
use crate::random::{mixed, Random};
use crate::run::{self, Counted, Part, Piece};
use crate::scale::Scale;

/// How many files a round makes, each whole and damaged.
const ROUND: usize = 65_536;

/// Files of more bytes take most of the time, the Rust's grows with the square; one of so many made is compared.
const SHORT: usize = 1_000;
const LONG_ONES: u64 = 16;

/// The files seen so far, by a hash of the source and the jet list. Files of one hash count as one, so that the number of
/// different ones is never told too high.
#[derive(Clone, Default)]
struct Seen(Arc<Mutex<HashSet<u64>>>);

impl Seen {
    /// Whether this file was not seen before. From now on it was.
    fn is_new(&self, source: &[u8], list: &List) -> bool {
        let mut hasher = DefaultHasher::new();
        (source, &list.bytes).hash(&mut hasher);
        let mut seen = self.0.lock().expect("no piece panicked");
        seen.insert(hasher.finish())
    }

    fn files(&self) -> usize {
        self.0.lock().expect("no piece panicked").len()
    }
}

/// A comparison of the files that were not seen before.
pub struct Many {
    pub comparison: Comparison,
    /// How many files were made, those that were seen before among them.
    pub made: u64,
    seen: Seen,
}

impl Many {
    fn new(callee: &'static dyn Callee, seen: &Seen) -> Self {
        Many {
            comparison: Comparison::new(callee),
            made: 0,
            seen: seen.clone(),
        }
    }

    /// How many different files were compared.
    pub fn files(&self) -> usize {
        self.seen.files()
    }
}

impl Counted for Many {
    fn shrink_disagreement(&mut self) {
        self.comparison.shrink_disagreement();
    }

    fn add(&mut self, other: Many) {
        self.comparison.add(other.comparison);
        self.made += other.made;
    }
}

const PART: Part<Many> = Part {
    name: "reader, files that differ",
    pieces: 64,
    compare: new_files,
};

fn new_files(piece: &Piece, many: &mut Many) {
    let mut random = Random::new(piece.seed(0xD1FF));
    for _ in 0..piece.share(piece.scale.count) {
        let (seen, made) = (&many.seen, &mut many.made);
        any_file(&mut random, &mut many.comparison, |source, list| {
            *made += 1;
            let short = source.len() <= SHORT || *made % LONG_ONES == 0;
            short && seen.is_new(source, list)
        });
    }
}

/// Compares at least so many different files, in rounds that follow from the seed alone, and tells of each round what was
/// compared so far. The run ends early after a round with a disagreement.
pub fn compare_files(
    callee: &'static dyn Callee,
    seed: u64,
    files: usize,
    told: impl Fn(&Many),
) -> Many {
    let seen = Seen::default();
    let mut sum = Many::new(callee, &seen);
    let mut round = 0;
    while seen.files() < files && sum.comparison.tallies.disagreements() == 0 {
        let scale = Scale {
            quick: false,
            seed: mixed(seed, round),
            count: ROUND.min(files / 2 + 1),
        };
        for done in run::run(&[PART], &scale, || Many::new(callee, &seen)) {
            sum.add(done.comparison);
        }
        told(&sum);
        round += 1;
    }
    sum
}

#[cfg(test)]
mod tests {
    use super::*;
    use crate::reader::mistakes::{stand_in, Mistake};

    #[test]
    fn a_file_is_new_once() {
        let seen = Seen::default();
        let (one, two) = (List::new(b"one"), List::new(b"two"));
        assert!(seen.is_new(b"a", &one) && seen.is_new(b"a", &two) && seen.is_new(b"b", &one));
        assert!(!seen.is_new(b"a", &one));
        assert_eq!(seen.files(), 3);
    }

    #[test]
    fn as_many_different_files_as_asked_are_each_compared_once() {
        let many = compare_files(stand_in(Mistake::None), 1, 300, |_| ());
        assert!(many.files() >= 300 && many.made > many.files() as u64);
        assert_eq!(many.comparison.met.files, many.files() as u64);
        assert_eq!(many.comparison.tallies.smallest(), None);
    }

    #[test]
    fn a_disagreement_ends_the_run() {
        let many = compare_files(stand_in(Mistake::CountOfNodes), 1, 100_000, |_| ());
        assert!(many.comparison.tallies.disagreements() > 0);
        assert!(many.files() < 100_000);
    }
}

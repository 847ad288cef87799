//! Running the parts of a comparison on all cores. What a part compares follows from the seed alone.

use std::sync::atomic::{AtomicUsize, Ordering};
use std::sync::Mutex;
use std::thread;

use crate::random::mixed;
use crate::scale::Scale;

/// What a comparison has counted, so that its pieces may be put together.
pub trait Counted: Send {
    /// Makes the shortest file that disagrees smaller still.
    fn shrink_disagreement(&mut self);

    /// Adds what another comparison counted.
    fn add(&mut self, other: Self);
}

/// A part of a comparison, cut into pieces that may run side by side.
pub struct Part<C> {
    pub name: &'static str,
    pub pieces: usize,
    /// Compares one piece.
    pub compare: fn(&Piece, &mut C),
}

/// A piece of a part: what the caller asks for, and which of how many pieces it is.
#[derive(Clone, Copy)]
pub struct Piece {
    pub scale: Scale,
    pub number: usize,
    pub of: usize,
}

impl Piece {
    /// How many of `count` inputs this piece makes.
    pub fn share(&self, count: usize) -> usize {
        count / self.of + usize::from(self.number < count % self.of)
    }

    /// The seed of this piece of a part that has a seed of its own.
    pub fn seed(&self, part: u64) -> u64 {
        mixed(mixed(self.scale.seed, part), self.number as u64)
    }

    /// Whether this piece takes item `index` of a list.
    pub fn takes(&self, index: usize) -> bool {
        index % self.of == self.number
    }
}

/// A part that is done.
pub struct Done<C> {
    pub name: &'static str,
    pub comparison: C,
}

/// Runs every part, and gives them in their order; `begun` makes a comparison that has counted nothing.
pub fn run<C: Counted>(
    parts: &[Part<C>],
    scale: &Scale,
    begun: impl Fn() -> C + Sync,
) -> Vec<Done<C>> {
    let pieces: Vec<(usize, Piece)> = parts
        .iter()
        .enumerate()
        .flat_map(|(number, part)| cut(number, part.pieces, scale))
        .collect();
    let empty = |part: &Part<C>| Done {
        name: part.name,
        comparison: begun(),
    };
    let next = AtomicUsize::new(0);
    let done: Mutex<Vec<Done<C>>> = Mutex::new(parts.iter().map(empty).collect());
    let work = || {
        while let Some(&(part, piece)) = pieces.get(next.fetch_add(1, Ordering::SeqCst)) {
            let mut comparison = begun();
            (parts[part].compare)(&piece, &mut comparison);
            comparison.shrink_disagreement();
            done.lock().expect("no piece panicked")[part]
                .comparison
                .add(comparison);
        }
    };
    let workers = thread::available_parallelism().map_or(1, usize::from);
    thread::scope(|scope| {
        for _ in 0..workers {
            scope.spawn(|| oracle::with_stack(work));
        }
    });
    done.into_inner().expect("no piece panicked")
}

/// The pieces of a part, with its number.
fn cut(part: usize, pieces: usize, scale: &Scale) -> Vec<(usize, Piece)> {
    let piece = |number| Piece {
        scale: *scale,
        number,
        of: pieces,
    };
    (0..pieces).map(|number| (part, piece(number))).collect()
}

/// The sum of each count with the other's.
pub fn add_all(sums: &mut [u64], counts: &[u64]) {
    for (sum, count) in sums.iter_mut().zip(counts) {
        *sum += count;
    }
}

#[cfg(test)]
pub mod tests {
    use super::*;

    /// The whole of a part, in a quick run with so many random inputs.
    pub fn whole(count: usize) -> Piece {
        piece(0, 1, count)
    }

    fn piece(number: usize, of: usize, count: usize) -> Piece {
        let scale = Scale {
            quick: true,
            seed: 1,
            count,
        };
        Piece { scale, number, of }
    }

    #[test]
    fn pieces_share_all_inputs_and_items() {
        let pieces: Vec<Piece> = (0..3).map(|number| piece(number, 3, 10)).collect();
        assert_eq!(
            pieces.iter().map(|piece| piece.share(10)).sum::<usize>(),
            10
        );
        for index in 0..9 {
            assert_eq!(pieces.iter().filter(|piece| piece.takes(index)).count(), 1);
        }
        assert_ne!(pieces[0].seed(5), pieces[1].seed(5));
    }

    /// Counts the inputs that it is given.
    struct Count(usize);

    impl Counted for Count {
        fn shrink_disagreement(&mut self) {}

        fn add(&mut self, other: Self) {
            self.0 += other.0;
        }
    }

    #[test]
    fn every_piece_of_every_part_runs_once() {
        let part = |name, pieces| Part {
            name,
            pieces,
            compare: |piece: &Piece, count: &mut Count| count.0 += piece.share(100),
        };
        let done = run(&[part("one", 3), part("two", 7)], &whole(1).scale, || {
            Count(0)
        });
        let counts: Vec<_> = done.iter().map(|d| (d.name, d.comparison.0)).collect();
        assert_eq!(counts, [("one", 100), ("two", 100)]);
    }
}

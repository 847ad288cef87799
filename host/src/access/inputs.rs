//! Tables, counts and numbers of any kind, most of them about an edge.

use crate::guarded::Against;
use crate::random::Random;
use crate::tables::RULES;

/// The most records of a table that is made, a few more than a reader fills.
pub const MOST: usize = RULES.records as usize + 6;

/// Which page a slice lies against.
pub fn against(random: &mut Random) -> Against {
    match random.chance(1, 4) {
        true => Against::Front,
        false => Against::Rear,
    }
}

/// How many records a table has room for: few, or about as many as a reader fills.
pub fn size(random: &mut Random) -> usize {
    match random.below(16) {
        0 => 0,
        1..=11 => random.below(9),
        12 => random.below(MOST),
        _ => random.between(RULES.records as usize - 2, MOST),
    }
}

/// A table of `size` records, or a few words more or less, filled by `word`.
pub fn table(
    size: usize,
    width: u32,
    random: &mut Random,
    word: impl Fn(usize, &mut Random) -> u32,
) -> Vec<u32> {
    let exact = size * width as usize;
    let words = match random.below(4) {
        0 => exact.saturating_sub(random.below(width as usize)),
        1 => exact + random.below(width as usize),
        _ => exact,
    };
    let place = |index: usize| index % width as usize;
    (0..words).map(|index| word(place(index), random)).collect()
}

/// A number that is 0, about `edge`, about 1,024, below it, or any.
pub fn number(edge: usize, random: &mut Random) -> u32 {
    let edge = edge as u32;
    match random.below(16) {
        0 => 0,
        1..=3 => (edge + random.below(4) as u32).saturating_sub(2),
        4 => (RULES.records + random.below(4) as u32).saturating_sub(2),
        5 => u32::MAX - random.below(3) as u32,
        6 => random.number() as u32,
        // numbers that are small again if four or eight times them wraps round
        7 => (random.below(9) as u32) << 29 | random.below(9) as u32,
        _ => random.below(edge as usize + 2) as u32,
    }
}

#[cfg(test)]
mod tests {
    use super::*;

    #[test]
    fn numbers_reach_every_edge() {
        let mut random = Random::new(3);
        let numbers: Vec<u32> = (0..4_000).map(|_| number(5, &mut random)).collect();
        for wanted in [0, 1, 4, 5, 6, 1_023, 1_024, 1_025, u32::MAX, (1 << 29) + 1] {
            assert!(numbers.contains(&wanted), "{wanted}");
        }
    }

    #[test]
    fn tables_are_short_exact_and_longer() {
        let mut random = Random::new(3);
        let mut lengths = || table(2, 4, &mut random, |_, _| 7).len();
        let lengths: Vec<usize> = (0..400).map(|_| lengths()).collect();
        assert!((5..=11).all(|length| lengths.contains(&length)));
    }
}

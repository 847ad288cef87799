//! The comparison with one seed after the other.

use crate::outcome::Outcome;
use std::ops::RangeInclusive;
use std::time::Instant;

/// Compares with each seed in turn, prints a line for each and one with the sums, and stops at the first seed with a fault.
/// Whether there was none.
pub fn compare_each(seeds: RangeInclusive<u64>, compare: impl Fn(u64) -> Outcome) -> bool {
    let (from, mut sum) = (*seeds.start(), Outcome::default());
    let begun = Instant::now();
    for seed in seeds.clone() {
        let start = Instant::now();
        let outcome = compare(seed);
        println!("seed {seed}: {outcome}, {}", seconds(start));
        let sound = outcome.is_sound();
        outcome.print_faults();
        sum.add(outcome);
        if !sound {
            println!("stopped at seed {seed}; --seed {seed} prints a line for each part");
            println!("seeds {from} to {seed}: {sum}, {}", seconds(begun));
            return false;
        }
    }
    println!("seeds {from} to {}: {sum}, {}", seeds.end(), seconds(begun));
    true
}

fn seconds(start: Instant) -> String {
    format!("{:.1} s", start.elapsed().as_secs_f64())
}

#[cfg(test)]
mod tests {
    use super::*;
    use std::cell::RefCell;
    use zaghdurem_host::tally::answer;

    /// What comes of a seed if one input is compared, and the answers agree or not.
    fn outcome(agrees: bool) -> Outcome {
        let mut outcome = Outcome {
            read: 1,
            ..Outcome::default()
        };
        let told = answer("one", agrees);
        let question = || "?".to_owned();
        outcome
            .library
            .compare(b"a", question, told, answer("two", true));
        outcome
    }

    #[test]
    fn the_run_stops_at_the_first_seed_that_disagrees() {
        let asked = RefCell::new(Vec::new());
        let compare = |seed| {
            asked.borrow_mut().push(seed);
            outcome(seed != 4)
        };
        assert!(!compare_each(2..=9, compare));
        assert_eq!(*asked.borrow(), [2, 3, 4]);
        assert!(compare_each(5..=9, compare));
        assert_eq!(*asked.borrow(), [2, 3, 4, 5, 6, 7, 8, 9]);
    }

    #[test]
    fn what_was_never_met_and_a_wrong_reference_are_faults() {
        let unmet = |_| Outcome {
            unmet: vec!["refusal 1".to_owned()],
            ..outcome(true)
        };
        assert!(!compare_each(1..=1, unmet));
        let reference = |_| Outcome {
            reference: outcome(false).library,
            ..outcome(true)
        };
        assert!(!compare_each(1..=1, reference));
    }

    #[test]
    fn counts_are_added() {
        let mut sum = outcome(true);
        sum.add(outcome(false));
        let shown = "0 sources lexed, 0 files parsed, 2 files read, 2 comparisons, 1 disagreements";
        assert_eq!(sum.to_string(), shown);
        assert!(!sum.is_sound());
    }
}

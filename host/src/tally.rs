//! Counting comparisons, and keeping the smallest input that disagrees.

use std::fmt::{self, Debug, Display};

/// One side of a comparison: who answered, and what.
pub struct Answer<T> {
    pub from: &'static str,
    pub value: T,
}

/// The answer `value` of `from`.
pub fn answer<T>(from: &'static str, value: T) -> Answer<T> {
    Answer { from, value }
}

/// Two answers that differ, with the input and the question they belong to.
#[derive(Clone, Debug, PartialEq, Eq)]
pub struct Disagreement {
    /// The bytes asked about; empty where the question says all.
    pub input: Vec<u8>,
    pub question: String,
    pub answers: [String; 2],
}

impl Display for Disagreement {
    fn fmt(&self, out: &mut fmt::Formatter<'_>) -> fmt::Result {
        let hex: Vec<String> = self
            .input
            .iter()
            .map(|byte| format!("{byte:02x}"))
            .collect();
        writeln!(out, "  question: {}", self.question)?;
        writeln!(
            out,
            "  input, {} bytes: {}",
            self.input.len(),
            hex.join(" ")
        )?;
        writeln!(out, "  input, escaped: \"{}\"", self.input.escape_ascii())?;
        writeln!(out, "  {}", self.answers[0])?;
        write!(out, "  {}", self.answers[1])
    }
}

/// How many answers were compared, how many differed, and the smallest that did.
#[derive(Clone, Debug, Default)]
pub struct Tally {
    pub comparisons: u64,
    pub disagreements: u64,
    pub smallest: Option<Disagreement>,
}

impl Tally {
    /// Compares two answers to one question about `input`.
    pub fn compare<T: PartialEq + Debug>(
        &mut self,
        input: &[u8],
        question: impl FnOnce() -> String,
        one: Answer<T>,
        two: Answer<T>,
    ) {
        self.comparisons += 1;
        if one.value == two.value {
            return;
        }
        self.disagreements += 1;
        if self
            .smallest
            .as_ref()
            .is_none_or(|known| input.len() < known.input.len())
        {
            self.smallest = Some(Disagreement {
                input: input.to_vec(),
                question: question(),
                answers: [shown(&one), shown(&two)],
            });
        }
    }

    /// Adds what another tally counted.
    pub fn add(&mut self, other: Tally) {
        self.comparisons += other.comparisons;
        self.disagreements += other.disagreements;
        let Some(found) = other.smallest else { return };
        if self
            .smallest
            .as_ref()
            .is_none_or(|known| found.input.len() < known.input.len())
        {
            self.smallest = Some(found);
        }
    }
}

impl Display for Tally {
    fn fmt(&self, out: &mut fmt::Formatter<'_>) -> fmt::Result {
        write!(
            out,
            "{} comparisons, {} disagreements",
            self.comparisons, self.disagreements
        )
    }
}

fn shown<T: Debug>(answer: &Answer<T>) -> String {
    format!("{} answers {:?}", answer.from, answer.value)
}

#[cfg(test)]
mod tests {
    use super::{answer, Tally};

    #[test]
    fn the_smallest_disagreement_is_kept() {
        let mut tally = Tally::default();
        for (input, value) in [
            (&b"abc"[..], 2),
            (b"a", 1),
            (b"b", 2),
            (b"cd", 2),
            (b"c", 3),
        ] {
            tally.compare(
                input,
                || "?".to_owned(),
                answer("one", 1),
                answer("two", value),
            );
        }
        assert_eq!((tally.comparisons, tally.disagreements), (5, 4));
        assert_eq!(tally.smallest.unwrap().input, b"b");
    }

    #[test]
    fn added_tallies_count_both() {
        let mut tally = Tally::default();
        tally.compare(b"ab", || "?".to_owned(), answer("one", 1), answer("two", 2));
        let mut other = Tally::default();
        other.compare(b"a", || "?".to_owned(), answer("one", 1), answer("two", 2));
        tally.add(other);
        assert_eq!((tally.comparisons, tally.disagreements), (2, 2));
        assert_eq!(tally.smallest.unwrap().input, b"a");
    }
}

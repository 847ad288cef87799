//! The limits and the reading of a word, against the rules page.

use crate::library::{self, Limits};
use crate::scale::Scale;
use crate::tally::{answer, Tally};

/// The numbers of the rules page, "Sizes".
pub const RULES: Limits = Limits {
    source_bytes: 32_768,
    records: 1_024,
    depth: 128,
    token_words: 3,
    line_words: 5,
    expression_words: 6,
    type_words: 4,
    name_words: 4,
    node_words: 8,
    error_words: 4,
    work_words: 4,
};

/// Compares the limits that the library tells with those of the rules page, number by number.
pub fn compare_limits(_: &Scale) -> Tally {
    let mut tally = Tally::default();
    let pairs = rows(&library::limits()).into_iter().zip(rows(&RULES));
    for ((name, told), (_, rule)) in pairs {
        tally.compare(
            &[],
            || name.to_owned(),
            answer("library", told),
            answer("rules page", rule),
        );
    }
    tally
}

fn rows(limits: &Limits) -> [(&'static str, u32); 11] {
    [
        ("source_bytes", limits.source_bytes),
        ("records", limits.records),
        ("depth", limits.depth),
        ("token_words", limits.token_words),
        ("line_words", limits.line_words),
        ("expression_words", limits.expression_words),
        ("type_words", limits.type_words),
        ("name_words", limits.name_words),
        ("node_words", limits.node_words),
        ("error_words", limits.error_words),
        ("work_words", limits.work_words),
    ]
}

/// Compares the reading of a word in tables of every small width, too short, exact and longer.
pub fn compare_words(scale: &Scale) -> Tally {
    let mut tally = Tally::default();
    let numbers = numbers(scale);
    for width in (0..=12).chain([1 << 20, 1 << 22, 1 << 31, u32::MAX - 1, u32::MAX]) {
        for length in lengths(width) {
            let table: Vec<u32> = (1..=length)
                .map(|word| word.wrapping_mul(0x9E37_79B1))
                .collect();
            for &number in &numbers {
                compare_record(&table, width, number, &mut tally);
            }
        }
    }
    tally
}

/// Compares every telling word of one record.
fn compare_record(table: &[u32], width: u32, number: u32, tally: &mut Tally) {
    for word in words(width) {
        tally.compare(
            &[],
            || {
                format!(
                    "word {word} of record {number}, width {width}, table of {} words",
                    table.len()
                )
            },
            answer("library", library::word(table, width, number, word)),
            answer("rules page", word_by_the_rules(table, width, number, word)),
        );
    }
}

/// The word as the rules have it: 0 wherever there is none.
fn word_by_the_rules(table: &[u32], width: u32, number: u32, word: u32) -> u32 {
    if number == 0 || number > RULES.records || word >= width {
        return 0;
    }
    let index = u64::from(number - 1) * u64::from(width) + u64::from(word);
    usize::try_from(index)
        .ok()
        .and_then(|index| table.get(index))
        .copied()
        .unwrap_or(0)
}

/// The record numbers asked for: all up to past the last in a full run.
fn numbers(scale: &Scale) -> Vec<u32> {
    let mut numbers: Vec<u32> = if scale.quick {
        (0..=40)
            .chain((41..1020).step_by(97))
            .chain(1020..=1030)
            .collect()
    } else {
        (0..=1030).collect()
    };
    numbers.extend([
        2047,
        2048,
        2049,
        65_536,
        1 << 30,
        1 << 31,
        u32::MAX - 1,
        u32::MAX,
    ]);
    numbers
}

/// Table lengths on both sides of some whole numbers of records.
fn lengths(width: u32) -> Vec<u32> {
    let mut lengths = vec![0, 1, 2, 13];
    for records in [1, 2, 3, 1023, 1024, 1025] {
        let exact = u64::from(width) * records;
        lengths.extend(
            [exact.saturating_sub(1), exact, exact + 1].map(|length| length.min(14_000) as u32),
        );
    }
    lengths.sort();
    lengths.dedup();
    lengths
}

/// All words of a narrow record and the next two, and those at the ends of what a word number can be.
fn words(width: u32) -> Vec<u32> {
    let mut words: Vec<u32> = (0..=width.min(12) + 1).collect();
    words.extend([
        width.wrapping_sub(1),
        width,
        width.wrapping_add(1),
        u32::MAX - 1,
        u32::MAX,
    ]);
    words.sort();
    words.dedup();
    words
}

#[cfg(test)]
mod tests {
    use super::word_by_the_rules;

    #[test]
    fn words_stand_in_records() {
        let table = [10, 11, 12, 20, 21, 22];
        assert_eq!(word_by_the_rules(&table, 3, 1, 0), 10);
        assert_eq!(word_by_the_rules(&table, 3, 2, 2), 22);
        assert_eq!(word_by_the_rules(&table, 3, 2, 3), 0);
        assert_eq!(word_by_the_rules(&table, 3, 0, 0), 0);
        assert_eq!(word_by_the_rules(&table, 3, 3, 0), 0);
        assert_eq!(word_by_the_rules(&[7; 2000], 1, 1024, 0), 7);
        assert_eq!(word_by_the_rules(&[7; 2000], 1, 1025, 0), 0);
        assert_eq!(word_by_the_rules(&table, u32::MAX, 1024, u32::MAX - 1), 0);
    }
}

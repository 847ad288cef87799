//! Lent tables in one buffer, with guard words round each, and the first word in it that is not as it must be.

use crate::tables::RULES;

/// Words behind the records that a call may be lent and must leave alone.
const SPARE: usize = 32;

/// Words before, between and behind the tables that no call is lent.
const GUARD: usize = 32;

/// The words of the 1,024 records of each table, by the words of one.
pub const fn words<const N: usize>(widths: [u32; N]) -> [usize; N] {
    let mut words = [0; N];
    let mut table = 0;
    while table < N {
        words[table] = RULES.records as usize * widths[table] as usize;
        table += 1;
    }
    words
}

/// The most words that a call is lent of each table, which is what it is lent if its tables are not what is tried.
pub const fn room<const N: usize>(words: [usize; N]) -> [usize; N] {
    let mut room = words;
    let mut table = 0;
    while table < N {
        room[table] += SPARE;
        table += 1;
    }
    room
}

/// The buffer that serves every call, with `N` tables.
pub struct Buffer<const N: usize> {
    names: [&'static str; N],
    /// The words of the records of each table.
    words: [usize; N],
    /// Where each table begins.
    starts: [usize; N],
    /// The words of the buffer before each call: none is 0, and no two are the same.
    pattern: Vec<u32>,
    /// As many zeros as the longest table has words.
    zeros: Vec<u32>,
    held: Vec<u32>,
}

impl<const N: usize> Buffer<N> {
    /// A buffer for tables of these names, whose records have so many words in all.
    pub fn new(names: [&'static str; N], words: [usize; N]) -> Self {
        let mut starts = [0; N];
        let mut end = 0;
        for (start, room) in starts.iter_mut().zip(room(words)) {
            *start = end + GUARD;
            end = *start + room;
        }
        let pattern: Vec<u32> = (1..=(end + GUARD) as u32)
            .map(|number| number.wrapping_mul(0x9E37_79B1))
            .collect();
        Buffer {
            names,
            words,
            starts,
            zeros: vec![0; words.into_iter().max().unwrap_or(0)],
            held: pattern.clone(),
            pattern,
        }
    }

    /// Fills the buffer with rubbish, and lends so many words of each table.
    pub fn lend(&mut self, lent: [usize; N]) -> [&mut [u32]; N] {
        self.held.copy_from_slice(&self.pattern);
        let (mut rest, mut at) = (&mut self.held[..], 0);
        std::array::from_fn(|table| {
            let (_, behind) = std::mem::take(&mut rest).split_at_mut(self.starts[table] - at);
            let (words, behind) = behind.split_at_mut(lent[table]);
            (rest, at) = (behind, self.starts[table] + lent[table]);
            words
        })
    }

    /// What the last call left in the records of each table.
    pub fn records(&self) -> [&[u32]; N] {
        std::array::from_fn(|table| &self.held[self.starts[table]..][..self.words[table]])
    }

    /// The first word that is not as a call must leave it: where it stands, what it is, and what it must be. `tables` are
    /// the records at the front of each table, behind which zeros follow up to the 1,024th; a table past them has none.
    /// None: no word is changed.
    pub fn first_difference(&self, tables: Option<&[Vec<u32>]>) -> Option<(String, u32, u32)> {
        if self.agrees(tables) {
            return None;
        }
        let differs = |&index: &usize| self.held[index] != self.wanted(tables, index);
        let index = (0..self.held.len()).find(differs)?;
        let wanted = self.wanted(tables, index);
        Some((self.place(index), self.held[index], wanted))
    }

    /// Whether every word is as it must be, compared in long pieces.
    fn agrees(&self, tables: Option<&[Vec<u32>]>) -> bool {
        let Some(tables) = tables else {
            return self.held == self.pattern;
        };
        let mut kept = 0;
        for number in 0..N {
            let (start, end) = (
                self.starts[number],
                self.starts[number] + self.words[number],
            );
            let records = tables.get(number).map_or(&[][..], Vec::as_slice);
            let (used, unused) = self.held[start..end].split_at(records.len());
            let settled = used == records && *unused == self.zeros[..unused.len()];
            if !settled || self.held[kept..start] != self.pattern[kept..start] {
                return false;
            }
            kept = end;
        }
        self.held[kept..] == self.pattern[kept..]
    }

    /// What a word of the buffer must be after a call.
    fn wanted(&self, tables: Option<&[Vec<u32>]>, index: usize) -> u32 {
        let settled = |&table: &usize| {
            let start = self.starts[table];
            (start..start + self.words[table]).contains(&index)
        };
        match (tables, (0..N).find(settled)) {
            (Some(tables), Some(table)) => {
                let word = index - self.starts[table];
                let records = tables.get(table);
                records
                    .and_then(|records| records.get(word))
                    .copied()
                    .unwrap_or(0)
            }
            _ => self.pattern[index],
        }
    }

    /// Where a word of the buffer stands, in words.
    fn place(&self, index: usize) -> String {
        let table = (0..N).rfind(|&table| self.starts[table] <= index);
        match table {
            None => format!("word {index} of the guard before the first table"),
            Some(table) => format!(
                "word {} from the start of {}",
                index - self.starts[table],
                self.names[table]
            ),
        }
    }
}

#[cfg(test)]
mod tests {
    use super::*;

    const WORDS: [usize; 3] = words([3, 5, 2]);
    const ROOM: [usize; 3] = room(WORDS);

    fn buffer() -> Buffer<3> {
        Buffer::new(["tokens", "lines", "others"], WORDS)
    }

    /// Of two tables; the third has none.
    fn records() -> [Vec<u32>; 2] {
        [vec![34, 0, 1], vec![0, 1, 1, 0, 0]]
    }

    /// The words about every edge of the buffer, and some between them.
    fn telling_words(buffer: &Buffer<3>) -> Vec<usize> {
        let edges = (0..3).flat_map(|table| {
            let start = buffer.starts[table];
            [start, start + 6, start + WORDS[table], start + ROOM[table]]
        });
        let about = edges.flat_map(|edge| edge - 3..=edge + 3);
        let (ends, between) = (
            [0, buffer.held.len() - 1],
            (0..buffer.held.len()).step_by(211),
        );
        about.chain(ends).chain(between).collect()
    }

    #[test]
    fn a_changed_word_is_found_wherever_it_stands() {
        let (records, mut buffer) = (records(), buffer());
        for tables in [Some(&records[..]), None] {
            let indexes = 0..buffer.held.len();
            buffer.held = indexes.map(|index| buffer.wanted(tables, index)).collect();
            assert_eq!(buffer.first_difference(tables), None);
            for index in telling_words(&buffer) {
                buffer.held[index] ^= 1;
                let found = buffer.first_difference(tables);
                assert_eq!(found.map(|(place, ..)| place), Some(buffer.place(index)));
                buffer.held[index] ^= 1;
            }
        }
    }

    #[test]
    fn tables_lie_apart_and_are_lent_as_long_as_asked() {
        let mut buffer = buffer();
        let asked = [0, WORDS[1] - 1, ROOM[2]];
        let [tokens, lines, others] = buffer.lend(asked);
        assert_eq!([tokens.len(), lines.len(), others.len()], asked);
        lines.fill(0);
        others.fill(0);
        let changed = buffer.held.iter().filter(|&&word| word == 0).count();
        assert_eq!(changed, WORDS[1] - 1 + ROOM[2]);
        let end = buffer.held.len() - GUARD;
        assert_eq!(buffer.held[end..], buffer.pattern[end..]);
        let [tokens, lines, others] = buffer.records();
        assert_eq!((tokens.len(), lines[0], others[1]), (WORDS[0], 0, 0));
        assert_ne!((tokens[0], lines[WORDS[1] - 1]), (0, 0));
    }

    #[test]
    fn no_word_of_the_pattern_is_zero_or_there_twice() {
        let mut words = buffer().pattern;
        let count = words.len();
        words.sort();
        words.dedup();
        assert_eq!(words.len(), count);
        assert_ne!(words[0], 0);
    }

    #[test]
    fn places_are_told_by_table() {
        let buffer = buffer();
        let last = format!("word {} from the start of others", ROOM[2] + 31);
        assert_eq!(
            buffer.place(0),
            "word 0 of the guard before the first table"
        );
        assert_eq!(
            buffer.place(buffer.starts[1]),
            "word 0 from the start of lines"
        );
        assert_eq!(buffer.place(buffer.held.len() - 1), last);
    }
}

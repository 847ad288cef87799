//! Roots and texts of names over tables of any words.

use super::{inputs, reference};
use crate::guarded::Guarded;
use crate::library;
use crate::random::{mixed, Random};
use crate::scale::Scale;
use crate::tables::RULES;
use crate::tally::{answer, Tally};

/// How many questions are asked about each pair of tables.
const QUESTIONS: usize = 8;

/// Names and nodes of any words, in memory of their own.
struct Memory {
    names: Guarded,
    nodes: Guarded,
    source: Guarded,
}

impl Memory {
    fn new() -> Self {
        let bytes = |width: u32| (inputs::MOST + 1) * width as usize * 4;
        Memory {
            names: Guarded::new(bytes(RULES.name_words)),
            nodes: Guarded::new(bytes(RULES.node_words)),
            source: Guarded::new(RULES.source_bytes as usize + 8),
        }
    }
}

/// A word of a name whose node, if it has one, is about as large as there are nodes.
fn name_word(nodes: usize) -> impl Fn(usize, &mut Random) -> u32 {
    move |place, random| match place {
        3 => inputs::number(nodes, random),
        _ => random.number() as u32,
    }
}

/// A word of a node; every other one has in-degree 0.
fn node_word(place: usize, random: &mut Random) -> u32 {
    match place {
        7 => random.below(2) as u32 * random.number() as u32,
        _ => random.number() as u32,
    }
}

/// The words of tables as bytes, so that the smallest ones that disagree are kept.
fn bytes(tables: &[&[u32]]) -> Vec<u8> {
    let words = tables.iter().flat_map(|table| table.iter());
    words.flat_map(|word| word.to_le_bytes()).collect()
}

/// The roots of tables of any words: the first behind any name, and the whole chain.
pub fn roots(scale: &Scale, tally: &mut Tally) {
    let mut random = Random::new(mixed(scale.seed, 0xACC1));
    let mut memory = Memory::new();
    for _ in 0..scale.count {
        let (name_size, node_size) = (inputs::size(&mut random), inputs::size(&mut random));
        let word = name_word(node_size);
        let names = inputs::table(name_size, RULES.name_words, &mut random, word);
        let nodes = inputs::table(node_size, RULES.node_words, &mut random, node_word);
        let names = memory.names.hold(&names, inputs::against(&mut random));
        let nodes = memory.nodes.hold(&nodes, inputs::against(&mut random));
        let tables = Tables {
            names,
            nodes,
            bytes: bytes(&[names, nodes]),
        };
        let mut after = 0;
        while let Some(next) = tables.compare((name_size as u32, node_size as u32), after, tally) {
            after = next;
        }
        for _ in 0..QUESTIONS {
            let counts = [name_size, node_size].map(|size| inputs::number(size, &mut random));
            let after = inputs::number(name_size, &mut random);
            tables.compare((counts[0], counts[1]), after, tally);
        }
    }
}

/// Two tables, and their words as bytes.
struct Tables<'a> {
    names: &'a [u32],
    nodes: &'a [u32],
    bytes: Vec<u8>,
}

impl Tables<'_> {
    /// Compares the first root behind a name, if there are so many names and nodes. Gives it if there is one and both agree.
    fn compare(&self, counts: (u32, u32), after: u32, tally: &mut Tally) -> Option<u32> {
        let (names, nodes) = (self.names, self.nodes);
        let told = library::next_root(names, counts.0, nodes, counts.1, after);
        let must = reference::next_root(names, counts.0, nodes, counts.1, after);
        let words = (names.len(), nodes.len());
        tally.compare(
            &self.bytes,
            || format!("root behind name {after}, counts {counts:?} in tables of {words:?} words"),
            answer("library", told),
            answer("reference", must),
        );
        (told == must && told != 0).then_some(told)
    }
}

/// The texts of names over tables of any words and sources of any length.
pub fn texts(scale: &Scale, tally: &mut Tally) {
    let mut random = Random::new(mixed(scale.seed, 0xACC2));
    let mut memory = Memory::new();
    let longest = vec![b'a'; RULES.source_bytes as usize + 8];
    for _ in 0..scale.count {
        let (size, length) = (inputs::size(&mut random), length(&mut random));
        let word = |place, random: &mut Random| match place {
            0 | 1 => inputs::number(length, random),
            _ => random.number() as u32,
        };
        let names = inputs::table(size, RULES.name_words, &mut random, word);
        let names = memory.names.hold(&names, inputs::against(&mut random));
        let source = &longest[..length];
        let source = memory
            .source
            .hold_bytes(source, inputs::against(&mut random));
        let words = bytes(&[names]);
        for _ in 0..QUESTIONS {
            let count = match random.chance(1, 2) {
                true => size as u32,
                false => inputs::number(size, &mut random),
            };
            let number = inputs::number(size, &mut random);
            tally.compare(
                &words,
                || format!("text of name {number} of {count}, in a source of {length} bytes"),
                answer("library", library::name_text(source, names, count, number)),
                answer(
                    "reference",
                    reference::name_text(length, names, count, number),
                ),
            );
        }
    }
}

/// The length of a source: short, or about the longest.
fn length(random: &mut Random) -> usize {
    match random.below(8) {
        0 => RULES.source_bytes as usize + random.below(9) - 4,
        1 => random.below(RULES.source_bytes as usize),
        _ => random.below(12),
    }
}

#[cfg(test)]
mod tests {
    use super::*;

    fn compared(compare: fn(&Scale, &mut Tally)) -> Tally {
        let mut tally = Tally::default();
        let scale = Scale {
            quick: true,
            seed: 1,
            count: 300,
        };
        compare(&scale, &mut tally);
        tally
    }

    #[test]
    fn roots_and_texts_agree() {
        for compare in [roots, texts] {
            let tally = compared(compare);
            assert!(tally.comparisons >= 300 * QUESTIONS as u64);
            assert_eq!(tally.smallest, None);
        }
    }

    #[test]
    fn there_are_roots_and_texts_to_find() {
        let (mut random, mut found) = (Random::new(1), 0);
        for _ in 0..300 {
            let size = inputs::size(&mut random);
            let names = inputs::table(size, 4, &mut random, name_word(size));
            let nodes = inputs::table(size, 8, &mut random, node_word);
            let root = reference::next_root(&names, size as u32, &nodes, size as u32, 0);
            found += usize::from(root != 0);
        }
        assert!((60..260).contains(&found), "{found}");
    }
}

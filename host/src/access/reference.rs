//! The accessors by the rules page, over any words: a table's records are those that lie in it whole, up to the 1,024th; of a name
//! that the table's end cuts off, the words that are not there read as 0.

use crate::library::Span;
use crate::tables::RULES;

/// The whole records of a table of `count` records, up to the 1,024th.
fn records(table: &[u32], width: u32, count: u32) -> impl Iterator<Item = &[u32]> {
    let most = count.min(RULES.records) as usize;
    table.chunks_exact(width as usize).take(most)
}

/// The span itself if it lies inside a source of so many bytes.
pub fn span_text(source_len: usize, start: u32, len: u32) -> Span {
    match u64::from(start) + u64::from(len) {
        end if end <= source_len as u64 => Span { start, len },
        _ => Span::default(),
    }
}

/// The span of a name's text.
pub fn name_text(source_len: usize, names: &[u32], count: u32, number: u32) -> Span {
    if number == 0 || number > count || number > RULES.records {
        return Span::default();
    }
    // Words that the table does not have read as 0.
    let first = (number as usize - 1) * RULES.name_words as usize;
    let word = |place: usize| names.get(first + place).copied().unwrap_or(0);
    span_text(source_len, word(0), word(1))
}

/// The first root behind a name.
pub fn next_root(
    names: &[u32],
    name_count: u32,
    nodes: &[u32],
    node_count: u32,
    after: u32,
) -> u32 {
    let in_degrees: Vec<u32> = records(nodes, RULES.node_words, node_count)
        .map(|node| node[7])
        .collect();
    let root = |node: u32| {
        let index = (node as usize).checked_sub(1);
        index.and_then(|index| in_degrees.get(index)) == Some(&0)
    };
    let names = (1..).zip(records(names, RULES.name_words, name_count));
    let mut behind = names.filter(|(number, _)| *number > after);
    let found = behind.find(|(_, name)| root(name[3]));
    found.map_or(0, |(number, _)| number)
}

#[cfg(test)]
mod tests {
    use super::*;

    /// Four words for each name, of which the last is its node.
    fn names(nodes: &[u32]) -> Vec<u32> {
        nodes.iter().flat_map(|&node| [3, 2, 0, node]).collect()
    }

    /// Eight words for each node, of which the last is its in-degree.
    fn nodes(in_degrees: &[u32]) -> Vec<u32> {
        let node = |&degree: &u32| [7, 0, 0, 0, 0, 0, 0, degree];
        in_degrees.iter().flat_map(node).collect()
    }

    #[test]
    fn roots_are_names_whose_node_has_in_degree_0() {
        let (names, nodes) = (names(&[2, 0, 4, 1, 3]), nodes(&[1, 0, 0]));
        let next = |after| next_root(&names, 5, &nodes, 3, after);
        assert_eq!([0, 1, 4, 5, u32::MAX].map(next), [1, 5, 5, 0, 0]);
        assert_eq!(next_root(&names, 4, &nodes, 3, 1), 0);
        assert_eq!(next_root(&names, 5, &nodes, 2, 1), 0);
        assert_eq!(next_root(&names[..19], 5, &nodes, 3, 1), 0);
        assert_eq!(next_root(&names, 5, &nodes[..23], 3, 1), 0);
        assert_eq!(next_root(&names, u32::MAX, &nodes, u32::MAX, 1), 5);
    }

    #[test]
    fn records_past_the_last_are_none() {
        let (many, nodes) = (names(&[1; 1_100]), nodes(&[0; 1_100]));
        assert_eq!(next_root(&many, 1_100, &nodes, 1_100, 1_023), 1_024);
        assert_eq!(next_root(&many, 1_100, &nodes, 1_100, 1_024), 0);
        assert_eq!(next_root(&names(&[1_024]), 1, &nodes, 1_100, 0), 1);
        assert_eq!(next_root(&names(&[1_025]), 1, &nodes, 1_100, 0), 0);
        assert_eq!(name_text(5, &many, 1_100, 1_024), Span { start: 3, len: 2 });
        assert_eq!(name_text(5, &many, 1_100, 1_025), Span::default());
        assert_eq!(name_text(4, &many, 1_100, 1), Span::default());
        assert_eq!(name_text(5, &many[..2], 1, 1), Span { start: 3, len: 2 });
        assert_eq!(name_text(5, &many[..1], 1, 1), Span { start: 3, len: 0 });
        assert_eq!(name_text(5, &many[..0], 1, 1), Span::default());
        assert_eq!(name_text(5, &many, 7, 8), Span::default());
        assert_eq!(name_text(5, &many, 7, 0), Span::default());
    }

    #[test]
    fn a_span_lies_inside_if_its_end_does() {
        assert_eq!(span_text(5, 3, 2), Span { start: 3, len: 2 });
        assert_eq!(span_text(5, 5, 0), Span { start: 5, len: 0 });
        for (start, len) in [(3, 3), (6, 0), (u32::MAX, 1), (3, u32::MAX - 2)] {
            assert_eq!(span_text(5, start, len), Span::default());
        }
    }
}

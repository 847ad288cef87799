//! Long chains of names, each of which uses the next, up to as many as 1,024 tokens hold, in several orders of lines.

use super::Comparison;
use crate::list::List;
use crate::run::Piece;
use std::ops::Range;

/// What each name but the last is; `next` and `before` are its neighbours, and `#` is a literal CMR.
const LINKS: [&str; 12] = [
    "next",
    "( next )",
    "take next",
    "pair next next",
    "pair unit next",
    "comp next unit",
    "assertl unit #{ next }",
    "assertr #{ next } unit",
    "assertl next #",
    "case next before",
    "disconnect before next",
    "pair ? next next",
];

/// What the last name is: it ends, or leads to nothing, to itself, to another one or to an illegal name.
const ENDS: [&str; 9] = [
    "last := unit",
    "last := first",
    "last := middle",
    "last : 1 -> 1",
    "last := last",
    "last := nosuch",
    "stray := witness",
    "last := pair first middle",
    "prim := last",
];

/// Of a full chain a quick run takes the first of these ends, and the first of the orders.
const QUICK_ENDS: usize = 3;
const QUICK_ORDERS: usize = 2;

const MOST_TOKENS: usize = 1_024;

/// In which order the lines of a chain stand.
#[derive(Clone, Copy, Debug)]
enum Order {
    Forwards,
    Backwards,
    /// From the middle to the end, and then from the beginning.
    FromTheMiddle,
    /// One from the beginning and one from the end in turn.
    InTurn,
    /// Every second one, and then those between.
    EverySecond,
}

const ORDERS: [Order; 5] = [
    Order::Forwards,
    Order::Backwards,
    Order::FromTheMiddle,
    Order::InTurn,
    Order::EverySecond,
];

/// Chains of every form: short ones, and as long as there is room for.
pub fn chains(piece: &Piece, comparison: &mut Comparison) {
    let (list, quick) = (List::new(b""), piece.scale.quick);
    let mut number = 0;
    for (link, end) in pairs(&LINKS, 0..ENDS.len()) {
        let most = most_names(link, ENDS[end]);
        for (count, order) in pairs(&counts(most, quick), 0..ORDERS.len()) {
            if quick && *count == most && (end >= QUICK_ENDS || order >= QUICK_ORDERS) {
                continue;
            }
            number += 1;
            if piece.takes(number) {
                let source = chain(link, *count, ENDS[end], ORDERS[order]);
                comparison.compare(source.as_bytes(), &list);
            }
        }
    }
}

/// How many names a chain has; a full run tries more lengths, one of them with too many tokens.
fn counts(most: usize, quick: bool) -> Vec<usize> {
    match quick {
        true => vec![1, 2, 3, 4, 5, 17, most],
        false => (1..=24)
            .chain([64, 100, most / 2, most - 1, most, most + 1])
            .collect(),
    }
}

/// Each of these with each number.
fn pairs<T>(items: &[T], numbers: Range<usize>) -> impl Iterator<Item = (&T, usize)> {
    let with = move |item| numbers.clone().map(move |number| (item, number));
    items.iter().flat_map(with)
}

/// The most names of a chain that is read.
fn most_names(link: &str, end: &str) -> usize {
    let tokens = |text: &str| oracle::lex(text).tokens.len();
    let link = format!("n := {}", written(link, 1, 2));
    (MOST_TOKENS - tokens(end)) / tokens(&link) + 1
}

/// A chain of so many names.
fn chain(link: &str, count: usize, end: &str, order: Order) -> String {
    let line = |number: usize| format!("n{number} := {}", written(link, number, count));
    let end = end
        .replace("last", &format!("n{count}"))
        .replace("first", "n1")
        .replace("middle", &format!("n{}", count.div_ceil(2)));
    let mut lines: Vec<String> = (1..count).map(line).chain([end]).collect();
    match order {
        Order::Forwards => {}
        Order::Backwards => lines.reverse(),
        Order::FromTheMiddle => lines.rotate_left(count / 2),
        Order::InTurn => {
            let at = |index: usize| match index % 2 {
                0 => index / 2,
                _ => count - 1 - index / 2,
            };
            lines = (0..count).map(|index| lines[at(index)].clone()).collect();
        }
        Order::EverySecond => {
            let (even, odd) = ((0..count).step_by(2), (1..count).step_by(2));
            lines = even.chain(odd).map(|index| lines[index].clone()).collect();
        }
    }
    lines.join("\n")
}

/// What name `number` of `count` is; the first one has the last before it.
fn written(link: &str, number: usize, count: usize) -> String {
    let before = if number == 1 { count } else { number - 1 };
    let cmr = format!("#{}", "9A".repeat(32));
    let tokens = link.split(' ').map(|token| match token {
        "next" => format!("n{}", number + 1),
        "before" => format!("n{before}"),
        "#" => cmr.clone(),
        other => other.to_owned(),
    });
    tokens.collect::<Vec<String>>().join(" ")
}

#[cfg(test)]
mod tests {
    use super::*;
    use crate::expected::expected_with;
    use std::collections::HashSet;

    fn counts_of(source: &str) -> (u32, [u32; 7]) {
        let jets = oracle::Jets::new(b"");
        oracle::with_stack(|| {
            let e = expected_with(source.as_bytes(), &jets);
            (e.no, e.counts)
        })
    }

    #[test]
    fn full_chains_are_read_and_longer_ones_are_not() {
        for (link, end) in pairs(&LINKS, 0..ENDS.len()) {
            let most = most_names(link, ENDS[end]);
            let [full, long] = [most, most + 1].map(|n| chain(link, n, ENDS[end], ORDERS[1]));
            assert_eq!(counts_of(&full).0, 0, "{link} {end}");
            assert_eq!(counts_of(&long).0, 5, "{link} {end}");
        }
        assert_eq!(most_names("next", "last := first"), 341);
    }

    #[test]
    fn every_order_has_every_line_once() {
        for count in 1..8 {
            let lines = |order| {
                let source = chain("take next", count, ENDS[0], order);
                let mut lines: Vec<String> = source.lines().map(str::to_owned).collect();
                lines.sort();
                lines
            };
            let forwards = lines(Order::Forwards);
            assert_eq!(forwards.len(), count);
            for order in ORDERS {
                assert_eq!(lines(order), forwards, "{order:?} {count}");
            }
        }
        let different: HashSet<String> = ORDERS
            .into_iter()
            .map(|order| chain("next", 6, ENDS[0], order))
            .collect();
        assert_eq!(different.len(), ORDERS.len());
    }

    #[test]
    fn a_loop_has_one_missing_node() {
        let source = chain("next", 5, "last := first", Order::Backwards);
        let (no, counts) = counts_of(&source);
        assert_eq!((no, counts[4], counts[5]), (0, 5, 5));
    }
}

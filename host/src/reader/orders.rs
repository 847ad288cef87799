//! All orders of the lines of small files: which name comes first decides which link of a loop is blamed.

use super::lines::FORMS;
use super::Comparison;
use crate::list::List;
use crate::random::{mixed, Random};
use crate::run::Piece;

/// Files whose lines are set apart by `|`: trees, loops of every length, uses in CMRs, illegal, repeated and typed lines.
const FILES: [&str; 14] = [
    "a := pair b c | b := take d | c := drop d | d := unit | e := comp a d",
    "a := b | b := c | c := d | d := e | e := a",
    "a := pair b e | b := c | c := a | d := e | e := d",
    "a := assertl b #{ c } | b := assertr #{ d } c | c := d | d := case a b | e := take a",
    "main := comp ( pair a b ) c | a := c | b := a | c : 1 -> 1 | c := b",
    "a := unit | a := b | b := a | a : 1 -> 2 | b : 2 -> 1",
    "a := nosuch | b := a | _ := b | prim := a | c := prim",
    "a := pair a a | b := pair a b | c := pair b c | d := pair c d | a := d",
    "aa := a | a := aaa | aaa := ab | ab := aa | b := aab",
    "a := b : x -> 1 | a := c : 2 -> y | b := unit : 1 -> _ | c : _ -> 2^4 | b : 2 -> 2",
    "a := pair b c | b := pair c d | c := pair d e | d := pair e f | e := pair f a | f := witness",
    "a := b | b := a | c := d | d := c | e := pair a d | f := pair e nosuch",
    "a := ?a | b := a : 1 -> 1 | c := b | c : 2 -> 2 | prima := c | d := prima",
    "a := assertl a #{ b } | b := assertr #{ c } a | c := b | a := c | d : 1 -> 1 | e := d",
];

/// A file of so many lines is made for so many inputs of other random parts.
const LINES: usize = 6;
const INPUTS_FOR_A_FILE: usize = 1_000;

/// Every order of the lines of every file.
pub fn all_orders(piece: &Piece, comparison: &mut Comparison) {
    let list = List::new(b"");
    let mut files: Vec<Vec<String>> = FILES.iter().map(|file| split(file)).collect();
    let mut random = Random::new(mixed(piece.scale.seed, 0x0D));
    for _ in 0..piece.scale.count / INPUTS_FOR_A_FILE {
        let any = |_| random.text(&FORMS);
        files.push((0..LINES).map(any).collect());
    }
    for lines in files {
        let orders = orders(lines.len()).into_iter().enumerate();
        for (_, order) in orders.filter(|&(number, _)| piece.takes(number)) {
            let source = permuted(&lines, &order).join("\n");
            comparison.compare(source.as_bytes(), &list);
        }
    }
}

fn split(file: &str) -> Vec<String> {
    file.split(" | ").map(str::to_owned).collect()
}

/// All orders of so many things, the one that changes nothing first.
pub fn orders(count: usize) -> Vec<Vec<usize>> {
    let mut all = vec![Vec::new()];
    for _ in 0..count {
        let longer = |order: Vec<usize>| {
            let missing: Vec<usize> = (0..count).filter(|next| !order.contains(next)).collect();
            missing
                .into_iter()
                .map(move |next| [&order[..], &[next]].concat())
        };
        all = all.into_iter().flat_map(longer).collect();
    }
    all
}

/// The lines in another order.
pub fn permuted(lines: &[String], order: &[usize]) -> Vec<String> {
    order.iter().map(|&index| lines[index].clone()).collect()
}

#[cfg(test)]
mod tests {
    use super::*;
    use crate::expected::expected_with;
    use std::collections::HashSet;

    #[test]
    fn orders_are_all_there_and_all_different() {
        for (count, all) in [(0, 1), (1, 1), (3, 6), (5, 120)] {
            let different: HashSet<_> = orders(count).into_iter().collect();
            assert_eq!(different.len(), all);
        }
        assert_eq!(orders(3)[0], [0, 1, 2]);
        let lines = split("a := b | b := a");
        assert_eq!(permuted(&lines, &[1, 0]), ["b := a", "a := b"]);
    }

    #[test]
    fn files_are_read() {
        let jets = oracle::Jets::new(b"");
        for file in FILES {
            let source = split(file).join("\n");
            assert_eq!(expected_with(source.as_bytes(), &jets).no, 0, "{file}");
        }
    }

    #[test]
    fn the_order_of_lines_matters_to_the_nodes() {
        let jets = oracle::Jets::new(b"");
        let nodes = |order: &Vec<usize>| {
            let source = permuted(&split(FILES[1]), order).join("\n");
            expected_with(source.as_bytes(), &jets).tables[5].clone()
        };
        let different: HashSet<_> = orders(5).iter().map(nodes).collect();
        // five names in a loop: a turn of the loop changes no node
        assert_eq!(different.len(), 120 / 5);
    }
}

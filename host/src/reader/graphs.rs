//! All files of three names over many right-hand sides, and of four over fewer: every small graph of uses.

use super::orders::{orders, permuted};
use super::Comparison;
use crate::list::List;
use crate::parser::grammatical;
use crate::random::Random;
use crate::run::Piece;

/// What a name may be. One that begins with `:` is a type line alone, and an empty one no line; `#` is a literal CMR.
const OF_THREE: [&str; 24] = [
    "a",
    "b",
    "c",
    "nosuch",
    "unit",
    "pair a b",
    "comp b a",
    "case c b",
    "assertl a #{ b }",
    "assertr #{ b } c",
    "assertl b #",
    "assertr # a",
    "?a",
    "disconnect a c",
    "take b",
    "_",
    "prima",
    "( c )",
    "pair pair a b c",
    "comp nosuch ( case a a )",
    "assertl ( assertr #{ a } b ) #{ pair c a }",
    ": a -> b",
    "",
    "injl drop ( assertl iden #{ c } )",
];

const OF_FOUR: [&str; 12] = [
    "a",
    "b",
    "c",
    "d",
    "unit",
    "pair a d",
    "comp d b",
    "assertl c #{ d }",
    "assertr #{ a } b",
    "case ( take c ) d",
    ": 1 -> d",
    "",
];

/// How many ways there are to put other lines round the three.
const VARIANTS: usize = 8;

/// All graphs of three names: in a quick run each as it is and once with other lines and another order; in a full run each
/// in every order with every kind of other lines.
pub fn three_names(piece: &Piece, comparison: &mut Comparison) {
    let (list, orders) = (List::new(b""), orders(3));
    let mut random = Random::new(piece.seed(0x3A));
    for number in (0..OF_THREE.len().pow(3)).filter(|&number| piece.takes(number)) {
        let lines = lines(number, ["a", "b", "c"], &OF_THREE);
        let mut compare = |variant: usize, order: &[usize]| {
            let source = varied(variant, &permuted(&lines, order));
            comparison.compare(source.as_bytes(), &list);
        };
        if piece.scale.quick {
            compare(0, &orders[0]);
            let order: &Vec<usize> = random.pick(&orders);
            compare(random.between(1, VARIANTS - 1), order);
            continue;
        }
        for order in &orders {
            (0..VARIANTS).for_each(|variant| compare(variant, order));
        }
    }
}

/// Graphs of four names: in a quick run some of them in some order, in a full run all in every order.
pub fn four_names(piece: &Piece, comparison: &mut Comparison) {
    let (list, orders, all) = (List::new(b""), orders(4), OF_FOUR.len().pow(4));
    let mut compare = |number: usize, order: &[usize]| {
        let lines = lines(number, ["a", "b", "c", "d"], &OF_FOUR);
        let source = permuted(&lines, order).join("\n");
        comparison.compare(source.as_bytes(), &list);
    };
    if piece.scale.quick {
        let mut random = Random::new(piece.seed(0x4A));
        for _ in 0..piece.share(piece.scale.count) {
            let order: &Vec<usize> = random.pick(&orders);
            compare(random.below(all), order);
        }
        return;
    }
    for number in (0..all).filter(|&number| piece.takes(number)) {
        orders.iter().for_each(|order| compare(number, order));
    }
}

/// All short expressions over three names, many of them inside CMRs, as what the first is; the second uses the first, and
/// the third is typed, repeated or neither.
pub fn expressions(piece: &Piece, comparison: &mut Comparison) {
    let list = List::new(b"");
    let most = if piece.scale.quick { 5 } else { 7 };
    let texts = grammatical::expressions(most, &[&["a", "b", "c"]]).concat();
    let texts = texts.into_iter().enumerate();
    for (number, text) in texts.filter(|&(number, _)| piece.takes(number)) {
        let third = ["c := unit", "c : 1 -> 1", "c := b\nc := a"][number / piece.of % 3];
        for source in [
            format!("a := {text}\nb := a\n{third}"),
            format!("{third}\nb := drop a\na := {text}"),
        ] {
            comparison.compare(source.as_bytes(), &list);
        }
    }
}

/// The lines of graph `number`: its digits say what each name is. A name without a line has an empty one.
fn lines<const N: usize>(number: usize, names: [&str; N], bodies: &[&str]) -> Vec<String> {
    let cmr = format!(" #{}", "0f".repeat(32));
    let mut left = number;
    let line = names.map(|name| {
        let body = bodies[left % bodies.len()];
        left /= bodies.len();
        let body = match body.strip_suffix(" #") {
            Some(front) => format!("{front}{cmr}"),
            None => body.replace(" # ", &format!("{cmr} ")),
        };
        match body.as_str() {
            "" => body,
            types if types.starts_with(':') => format!("{name} {types}"),
            body => format!("{name} := {body}"),
        }
    });
    line.to_vec()
}

/// The three lines with others round them.
fn varied(variant: usize, lines: &[String]) -> String {
    let [one, two, three] = [0, 1, 2].map(|line| lines.get(line).map_or("", String::as_str));
    match variant {
        0 => format!("{one}\n{two}\n{three}"),
        1 => format!("b : 1 -> 2\n{one}\n{two}\n{three}\nc : x * 2 -> _"),
        2 => format!("{}\n{}\n{}", typed(one), typed(two), typed(three)),
        3 => format!("{one}\n{two}\n{three}\na := c\nb := a : 2 -> 2"),
        4 => format!("c := unit : 2 -> 1\n{one}\n{two}\n{three}"),
        5 => format!("_ := a\n{one}\nprima := pair b c\n{two}\nprim : 1 -> 1\n{three}"),
        6 => format!("{one}\n{one}\n{two}\n{}\n{three}\n{three}", typed(two)),
        _ => format!("main := pair a pair c b\n{one}\n{two}\n{three}\nz := comp b a"),
    }
}

/// The line with types behind it, unless it has some or is none.
fn typed(line: &str) -> String {
    let bare = line.contains(":=");
    format!("{line}{}", if bare { " : 1 + a -> _" } else { "" })
}

#[cfg(test)]
mod tests {
    use super::*;
    use crate::expected::expected_with;
    use oracle::Jets;
    use std::collections::HashSet;

    /// The refusal, and the kinds of nodes.
    fn read(source: &str) -> (u32, Vec<u32>) {
        let e = expected_with(source.as_bytes(), &Jets::new(b""));
        (e.no, e.tables[5].chunks(8).map(|node| node[0]).collect())
    }

    #[test]
    fn every_variant_of_every_body_is_read() {
        let mut sources = HashSet::new();
        for number in 0..OF_THREE.len() {
            let number = number * (1 + OF_THREE.len() + OF_THREE.len().pow(2));
            let lines = lines(number, ["a", "b", "c"], &OF_THREE);
            for variant in 0..VARIANTS {
                let source = varied(variant, &lines);
                assert_eq!(read(&source).0, 0, "{source}");
                sources.insert(source);
            }
        }
        assert!(sources.len() > (VARIANTS - 1) * OF_THREE.len());
    }

    #[test]
    fn bodies_give_the_nodes_that_names_may_become() {
        let kinds: HashSet<u32> = (0..OF_THREE.len())
            .flat_map(|number| {
                let lines = lines(number, ["a", "b", "c"], &OF_THREE);
                read(&lines.join("\n")).1
            })
            .collect();
        // all but injr, witness and what has a literal
        let all = (1..=8).chain(10..=15).chain([17]);
        assert_eq!(kinds, all.collect());
    }

    #[test]
    fn graphs_are_all_different() {
        let all = OF_FOUR.len().pow(4);
        let of = |number| lines(number, ["a", "b", "c", "d"], &OF_FOUR).join("\n");
        assert_eq!((0..all).map(of).collect::<HashSet<_>>().len(), all);
    }
}

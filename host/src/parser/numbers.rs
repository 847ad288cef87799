//! Literals of every telling length, and exponents at every edge.

use super::{Comparison, List};
use crate::run::Piece;

/// Digits of hex literals: all set, none set, and mixed.
const HEX: [&str; 3] = ["f", "0", "9e0c5a37b1"];

const BINARY: [&str; 3] = ["1", "0", "0110100"];

/// Where a literal may stand; `L` is the literal.
const LITERAL_FILES: [&str; 9] = [
    "a := const L",
    "a := fail L",
    "a := pair const L unit",
    "a := comp fail L b b := const L",
    "a := const L : 1 -> 2",
    "a := assertr #{ fail L } const L",
    "a := (const L)",
    "a := const\nL--",
    "a := L",
];

/// Where a power may stand; `E` is its exponent.
const POWER_FILES: [&str; 10] = [
    "a : 2^E -> 1",
    "a : 1 -> 2^E",
    "a := unit : 2^E -> 2^E",
    "a := unit : (2^E) * 2 -> 1",
    "a : _ + 2^E -> 1",
    "a : 2^E * _ -> 2^E + x",
    "a : ((2^E))->1b:=unit",
    "a : 1 -> 1 2^E",
    "a := 2^E",
    "2^E : 1 -> 1",
];

/// Exponents that no count reaches: those at the edges of numbers of 32, 64 and 128 bits, and some that are no exponents.
const FAR_EXPONENTS: [&str; 22] = [
    "2147483647",
    "2147483648",
    "4294967294",
    "4294967295",
    "4294967296",
    "4294967297",
    "4294967298",
    "4294967300",
    "4294967808",
    "8589934592",
    "42949672950",
    "9223372036854775808",
    "18446744073709551615",
    "18446744073709551616",
    "18446744073709551617",
    "18446744073709551618",
    "18446744073709552128",
    "340282366920938463463374607431768211456",
    "340282366920938463463374607431768211458",
    "0",
    "01",
    "0512",
];

/// `const` and `fail` with literals of every telling length.
pub fn literals(piece: &Piece, comparison: &mut Comparison) {
    let list = List::new(b"");
    let each = (0..).zip(all_literals(piece.scale.quick));
    for (_, literal) in each.filter(|&(number, _)| piece.takes(number)) {
        for file in LITERAL_FILES {
            comparison.compare(file.replace('L', &literal).as_bytes(), &list);
        }
    }
}

/// Types with exponents at every edge, and all from 1 to over 1,024.
pub fn exponents(piece: &Piece, comparison: &mut Comparison) {
    let list = List::new(b"");
    let each = (0..).zip(all_exponents(piece.scale.quick));
    for (_, exponent) in each.filter(|&(number, _)| piece.takes(number)) {
        for file in POWER_FILES {
            comparison.compare(file.replace('E', &exponent).as_bytes(), &list);
        }
    }
}

/// `_`, and literals of both kinds, of every telling length and of each mixture of digits.
fn all_literals(quick: bool) -> Vec<String> {
    let mut literals = vec!["_".to_owned()];
    for length in lengths(quick) {
        let hex = HEX.map(|digits| literal("0x", digits, length));
        let binary = BINARY.map(|digits| literal("0b", digits, length));
        literals.extend(hex.into_iter().chain(binary));
    }
    literals
}

/// Numbers of digits: all small ones, those about powers of two, and those about what `fail` takes.
fn lengths(quick: bool) -> Vec<usize> {
    let most = if quick { 34 } else { 600 };
    let mut lengths: Vec<usize> = (0..=most).collect();
    for power in 5..=13 {
        lengths.extend((1 << power) - 2..=(1 << power) + 2);
    }
    lengths.extend([
        126, 127, 128, 129, 130, 131, 504, 510, 511, 512, 513, 16_384, 16_385,
    ]);
    lengths.sort();
    lengths.dedup();
    lengths
}

/// The front and so many of the digits, over and over.
fn literal(front: &str, digits: &str, length: usize) -> String {
    let digits = digits.chars().cycle().take(length);
    front.chars().chain(digits).collect()
}

/// All exponents up to over 1,024, fewer in a quick run; the far ones; powers of two and of ten and their neighbours; and
/// numbers of hundreds of digits.
fn all_exponents(quick: bool) -> Vec<String> {
    let most = if quick { 70 } else { 1_100 };
    let near: Vec<u128> = [
        127, 128, 129, 255, 256, 257, 511, 512, 513, 1023, 1024, 1025,
    ]
    .to_vec();
    let powers = (1..=126).map(|power| 1u128 << power);
    let tens = (0..=38).map(|power| 10u128.pow(power));
    let about = powers.chain(tens).flat_map(|n| [n - 1, n, n + 1, n + 2]);
    let mut numbers: Vec<u128> = (1..=most).chain(near).chain(about).collect();
    numbers.sort();
    numbers.dedup();
    let mut exponents: Vec<String> = numbers.iter().map(u128::to_string).collect();
    exponents.extend(FAR_EXPONENTS.map(str::to_owned));
    for digits in [39, 100, 300, 999, 3_000] {
        exponents.push(literal("1", "0", digits));
        exponents.push(literal("2", "9", digits));
    }
    exponents
}

#[cfg(test)]
mod tests {
    use super::*;
    use crate::expected::parsed_with;

    fn answer(source: &str) -> (u32, u32) {
        let jets = oracle::Jets::new(b"");
        let (e, _) = oracle::with_stack(|| parsed_with(source.as_bytes(), &jets));
        (e.no, e.value)
    }

    #[test]
    fn literals_stand_on_both_sides_of_every_edge() {
        let lengths = lengths(true);
        for wanted in [
            0, 1, 2, 3, 4, 7, 8, 31, 32, 127, 128, 129, 255, 257, 512, 513, 8191, 8193,
        ] {
            assert!(lengths.contains(&wanted), "{wanted}");
        }
        let fail = |length| answer(&format!("a := fail {}", literal("0x", "f", length)));
        assert_eq!(
            [31, 32, 128, 129].map(fail),
            [(8, 124), (0, 0), (0, 0), (9, 516)]
        );
        let word = |length| answer(&format!("a := const {}", literal("0b", "1", length)));
        assert_eq!(
            [1, 3, 8191, 8192].map(word),
            [(0, 0), (7, 3), (7, 8191), (0, 0)]
        );
        assert_eq!(answer("a := const 0x").0, 4);
    }

    #[test]
    fn exponents_stand_on_both_sides_of_every_edge() {
        let exponents = all_exponents(true);
        for wanted in [
            "1",
            "2",
            "3",
            "4",
            "512",
            "513",
            "1024",
            "4294967295",
            "4294967296",
        ] {
            assert!(
                exponents.iter().any(|exponent| exponent == wanted),
                "{wanted}"
            );
        }
        let power = |exponent: &str| answer(&format!("a : 2^{exponent} -> 1"));
        assert_eq!(["1", "512"].map(power), [(0, 0); 2]);
        assert_eq!(power("1024"), (11, 1024));
        assert_eq!(power("4294967295"), (11, u32::MAX));
        assert_eq!(
            ["4294967296", "18446744073709551618"].map(power),
            [(12, 0); 2]
        );
        assert_eq!(power(&literal("1", "0", 300)), (12, 0));
    }

    #[test]
    fn no_file_is_too_long() {
        for literal in all_literals(false) {
            let longest = LITERAL_FILES
                .iter()
                .map(|file| file.replace('L', &literal).len())
                .max();
            assert!(longest.unwrap() <= 32_768 || literal.len() > 16_000);
        }
    }
}

//! Literals for `const` and `fail`, and literal CMRs.

use crate::random::Random;

const HEX: &[u8; 16] = b"0123456789abcdef";
const HEX_OF_BOTH_CASES: &[u8; 22] = b"0123456789abcdefABCDEF";

/// A literal that `const` takes: its bit length is a power of two.
pub fn word(random: &mut Random) -> String {
    let power = match random.below(8) {
        0..=5 => random.below(6),
        6 => random.between(6, 8),
        _ => random.between(8, 10),
    };
    if random.chance(1, 2) && power >= 2 {
        hex(random, 1 << (power - 2))
    } else {
        binary(random, 1 << power)
    }
}

/// A literal about a power of two long, or `_`.
pub fn word_at_edge(random: &mut Random) -> String {
    let powers = if random.chance(1, 32) { 14 } else { 11 };
    let digits = (1usize << random.below(powers)) + random.below(3);
    match random.below(16) {
        0 => "_".to_owned(),
        1..=7 => binary(random, (digits - 1).max(1)),
        8..=13 => hex(random, (digits - 1).max(1)),
        _ => any(random, 300),
    }
}

/// A literal that `fail` takes: 128 to 512 bits.
pub fn entropy(random: &mut Random) -> String {
    match random.below(4) {
        0 => hex(random, 32),
        1 => hex(random, 128),
        2 => binary(random, 128),
        _ => {
            let digits = random.between(32, 128);
            hex(random, digits)
        }
    }
}

/// A literal about as short or as long as `fail` takes it, or `_`.
pub fn entropy_at_edge(random: &mut Random) -> String {
    match random.below(16) {
        0 => "_".to_owned(),
        1..=8 => {
            let digits = *random.pick(&[31, 32, 33, 34, 63, 64, 65, 126, 127, 128, 129, 130]);
            hex(random, digits)
        }
        9..=14 => {
            let digits = *random.pick(&[126, 127, 128, 129, 131, 255, 257, 504, 511, 512, 513]);
            binary(random, digits)
        }
        _ => any(random, 600),
    }
}

/// A literal CMR.
pub fn cmr(random: &mut Random) -> String {
    digits("#", HEX_OF_BOTH_CASES, 64, random)
}

/// A `0b` literal.
pub fn binary(random: &mut Random, length: usize) -> String {
    digits("0b", b"01", length, random)
}

/// A `0x` literal.
pub fn hex(random: &mut Random, length: usize) -> String {
    digits("0x", HEX, length, random)
}

fn any(random: &mut Random, most: usize) -> String {
    let length = random.between(1, most);
    if random.chance(1, 2) {
        binary(random, length)
    } else {
        hex(random, length)
    }
}

/// The front and then `length` digits: mostly mixed, sometimes all the same.
fn digits(front: &str, set: &[u8], length: usize, random: &mut Random) -> String {
    let mut out = front.to_owned();
    let only = *random.pick(set);
    let same = random.chance(1, 8);
    for _ in 0..length {
        out.push(char::from(if same { only } else { *random.pick(set) }));
    }
    out
}

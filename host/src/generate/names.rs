//! Names for lines and for uses.

use super::vocabulary::{ILLEGAL_NAMES, NAMES, NEAR_NAMES};
use crate::random::Random;

/// `count` legal names, no two the same.
pub fn distinct(random: &mut Random, count: usize) -> Vec<String> {
    let mut names: Vec<String> = NAMES
        .iter()
        .chain(&NEAR_NAMES)
        .map(|&name| name.to_owned())
        .collect();
    random.shuffle(&mut names);
    if random.chance(1, 16) {
        names.insert(0, long(random));
    }
    for number in names.len()..count {
        names.push(format!("n{number}"));
    }
    names.truncate(count);
    names
}

/// A name that no line of a file made from `distinct` names has, or one that no line may have.
pub fn stranger(random: &mut Random) -> String {
    if random.chance(1, 2) {
        random.text(&ILLEGAL_NAMES)
    } else {
        random.text(&["nosuch", "mai", "mainn", "n", "a'", "aa", "Main", "n0x"])
    }
}

/// A name of some hundreds of bytes.
fn long(random: &mut Random) -> String {
    let length = random.between(100, 600);
    let tail: String = (0..length)
        .map(|_| char::from(*random.pick(b"abcXYZ019_-.'")))
        .collect();
    format!("l{tail}")
}

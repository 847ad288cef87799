//! Jet lists, and the jets that a list knows.

use super::vocabulary::JET_NAMES;
use crate::random::Random;

/// What may stand before a name in a list; mostly nothing.
const BEFORE: [&[u8]; 8] = [b"", b"", b"", b"", b" ", b"\n", b"jet_", b"\r"];

/// What may stand after a name in a list; mostly the end of a line.
const AFTER: [&[u8]; 12] = [
    b"\n", b"\n", b"\n", b"\n", b"\r\n", b"\r\n", b"\n\n", b"", b" \n", b"\0", b"\xff\n", b"\r\r\n",
];

/// A list of jets, one to a line.
pub fn plain_list(random: &mut Random) -> Vec<u8> {
    let count = random.below(JET_NAMES.len() + 1);
    let mut list = some_names(random, count).join("\n").into_bytes();
    if random.chance(3, 4) {
        list.push(b'\n');
    }
    list
}

/// A list in any form: CR LF, empty pieces, blanks, other bytes, no end of line.
pub fn any_list(random: &mut Random) -> Vec<u8> {
    if random.chance(1, 3) {
        return plain_list(random);
    }
    let mut list = Vec::new();
    let count = random.below(8);
    for name in some_names(random, count) {
        list.extend_from_slice(random.pick::<&[u8]>(&BEFORE));
        list.extend_from_slice(name.as_bytes());
        list.extend_from_slice(random.pick::<&[u8]>(&AFTER));
    }
    list
}

/// The jet tokens that a list knows.
pub fn known(list: &[u8]) -> Vec<String> {
    list.split(|&byte| byte == b'\n')
        .filter(|piece| !piece.is_empty() && piece.iter().all(|&byte| continues_jet(byte)))
        .map(|piece| format!("jet_{}", String::from_utf8_lossy(piece)))
        .collect()
}

/// The jet tokens that a list may or may not know.
pub fn all() -> Vec<String> {
    JET_NAMES.iter().map(|name| format!("jet_{name}")).collect()
}

fn some_names(random: &mut Random, count: usize) -> Vec<&'static str> {
    let mut names = JET_NAMES.to_vec();
    random.shuffle(&mut names);
    names.truncate(count);
    names
}

fn continues_jet(byte: u8) -> bool {
    matches!(byte, b'a'..=b'z' | b'0'..=b'9' | b'_')
}

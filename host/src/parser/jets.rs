//! Jets by lists of every form.

use super::{Comparison, List};
use crate::run::Piece;

/// Bytes that tell the rule of lists apart.
const LETTERS: &[u8] = b"ab\n\r";

/// Jets asked for by lists over the letters; the last two are none.
const SHORT_JETS: [&str; 8] = ["a", "b", "ab", "ba", "aa", "abab", "", "A"];

/// Lists picked by hand.
const LISTS: [&[u8]; 34] = [
    b"",
    b"\n",
    b"\n\n\n",
    b"add_32",
    b"add_32\n",
    b"add_32\r\n",
    b"add_32\r",
    b"\nadd_32",
    b"\r\nadd_32\r\nverify\r\n",
    b"verify\nadd_32",
    b"verify\n\n\nadd_32\n\n",
    b"add_32\nadd_32\nadd_32\n",
    b"add_3",
    b"add_3\nadd_32\n",
    b"add_32\nadd_3\n",
    b"add_321\n",
    b"add_321\nadd_32",
    b"xadd_32\n",
    b"dd_32\n",
    b"add_\n32\n",
    b"add_32 \n",
    b" add_32\n",
    b"\tadd_32",
    b"add_32\0\n",
    b"add_32\n\0",
    b"jet_add_32\n",
    b"jet_jet_add_32\njet_add_32",
    b"ADD_32\nVerify\n",
    b"add_32\xff\n\xffadd_32\n",
    b"\xff\xfe\nadd_32\n\xc3",
    b"add_32,verify\n",
    b"_\n__\n0\n",
    b"\x0aadd_32\x0b",
    b"a\nd\nd\n_\n3\n2",
];

/// Jets asked for by the lists picked by hand.
const JETS: [&str; 16] = [
    "add_32",
    "add_3",
    "add_",
    "add_321",
    "xadd_32",
    "dd_32",
    "verify",
    "jet_add_32",
    "_",
    "__",
    "0",
    "3",
    "a",
    "add_32_",
    "32",
    "erify",
];

/// Where a jet may stand; `J` is the jet.
const FILES: [&str; 7] = [
    "a := jet_J",
    "a:=(jet_J)",
    "a := pair jet_J jet_J : 1 -> 1",
    "a := assertl jet_verify #{ jet_J }",
    "a := ?jet_J",
    "jet_J := unit",
    "a : jet_J -> 1",
];

/// The lists picked by hand, each with each jet.
pub fn picked_lists(piece: &Piece, comparison: &mut Comparison) {
    for (_, bytes) in (0..).zip(LISTS).filter(|&(number, _)| piece.takes(number)) {
        let list = List::new(bytes);
        for jet in JETS {
            for file in FILES {
                comparison.compare(file.replace('J', jet).as_bytes(), &list);
            }
        }
    }
}

/// All lists of up to 5 telling bytes, 6 in a full run, each with each short jet.
pub fn short_lists(piece: &Piece, comparison: &mut Comparison) {
    let most = if piece.scale.quick { 5 } else { 6 };
    let sources = SHORT_JETS.map(|jet| format!("a := jet_{jet}"));
    for length in 0..=most {
        for number in (0..LETTERS.len().pow(length)).filter(|&number| piece.takes(number)) {
            let letter = |place: u32| LETTERS[number / LETTERS.len().pow(place) % LETTERS.len()];
            let list = List::new(&(0..length).map(letter).collect::<Vec<u8>>());
            for source in &sources {
                comparison.compare(source.as_bytes(), &list);
            }
        }
    }
}

/// 340 lines of jets and a few more or less, by lists of 65,536 bytes and about that, in which the jet is the first piece,
/// the last one, or none; also lists without newline, and of newlines alone.
pub fn full_files(piece: &Piece, comparison: &mut Comparison) {
    let long = |length: usize, last: &[u8]| {
        let pieces: Vec<u8> = b"first\n"
            .iter()
            .chain(b"other_jet\n".repeat(length / 10).iter())
            .copied()
            .collect();
        [&pieces[..length - last.len() - 1], b"\n", last].concat()
    };
    let mut lists: Vec<Vec<u8>> = [65_535, 65_536, 65_537]
        .map(|length| long(length, b"last"))
        .to_vec();
    lists.extend([
        long(65_536, b"last\n"),
        long(200_000, b"last"),
        vec![b'\n'; 65_536],
    ]);
    lists.extend([
        vec![b'a'; 65_536],
        [&b"first\nlast\n"[..], &[b'b'; 65_525]].concat(),
    ]);
    for (_, bytes) in (0..).zip(lists).filter(|&(number, _)| piece.takes(number)) {
        let list = List::new(&bytes);
        for count in [1, 339, 340, 341, 342] {
            for jet in ["first", "last", "other_jet", "las", "irst"] {
                let lines = |name: usize| format!("n{name} := jet_{jet}\n");
                let source: String = (0..count).map(lines).collect();
                comparison.compare(source.as_bytes(), &list);
            }
        }
    }
}

#[cfg(test)]
mod tests {
    use super::*;
    use crate::expected::parsed_with;
    use std::collections::HashSet;

    fn refusal(jet: &str, list: &[u8]) -> u32 {
        let source = format!("a := jet_{jet}");
        parsed_with(source.as_bytes(), &oracle::Jets::new(list))
            .0
            .no
    }

    #[test]
    fn a_jet_is_known_exactly_if_it_is_a_piece() {
        for list in LISTS {
            for jet in JETS {
                let known = list
                    .split(|&byte| byte == 10)
                    .any(|piece| piece == jet.as_bytes());
                let wanted = if known { 0 } else { 10 };
                assert_eq!(
                    refusal(jet, list),
                    wanted,
                    "{jet} by {}",
                    list.escape_ascii()
                );
            }
        }
    }

    #[test]
    fn lists_are_different_and_know_some() {
        let different: HashSet<&[u8]> = LISTS.into_iter().collect();
        assert_eq!(different.len(), LISTS.len());
        let known = LISTS
            .iter()
            .filter(|list| refusal("add_32", list) == 0)
            .count();
        assert!((10..24).contains(&known), "{known}");
    }
}

//! The entry of the fuzzer agrees where it should, and finds a mistake and makes it smaller.

use super::*;
use zaghdurem_host::reader::Library;

/// The answer about an input, or what is found.
fn fuzzed(callee: &'static dyn Callee, input: &[u8]) -> Result<usize, Found> {
    oracle::with_stack(|| Fuzzed::new(callee).compare(input))
}

#[test]
fn an_input_is_parted_at_its_first_zero() {
    assert_eq!(
        parted(b"verify\nx\0a\0b"),
        (&b"verify\nx"[..], &b"a\0b"[..])
    );
    assert_eq!(parted(b"\0a"), (&b""[..], &b"a"[..]));
    assert_eq!(parted(b"a"), (&b""[..], &b"a"[..]));
    assert_eq!(parted(b"a\0"), (&b"a"[..], &b""[..]));
}

#[test]
fn every_answer_but_a_short_table_is_given() {
    let long = |byte: &str, count| format!("\0a := {}", byte.repeat(count)).into_bytes();
    for (input, answer) in [
        (b"add\0a := jet_add".to_vec(), 0),
        (b"a := jet_add".to_vec(), 10),
        (long(" ", 32_764), 2),
        (b"\xff".to_vec(), 3),
        (b"a := %".to_vec(), 4),
        (long("a ", 1_023), 5),
        (b"a := )".to_vec(), 6),
        (b"a := const 0b111".to_vec(), 7),
        (b"a := fail 0b1".to_vec(), 8),
        (long(&format!("fail 0x{}", "5a".repeat(65)), 1), 9),
        (b"a : 2^3 -> 1".to_vec(), 11),
        (b"a : 2^4294967296 -> 1".to_vec(), 12),
        (long("take ", 200), 13),
    ] {
        let told = fuzzed(&Library, &input).expect("no disagreement");
        let front = &input[..input.len().min(40)];
        assert_eq!(told, answer, "{}", front.escape_ascii());
    }
}

#[test]
fn a_mistake_is_found_and_made_smaller() {
    let lines =
        b"a := x\nb := y : 1 -> 1\nc := pair a b\nd := comp (take c) c\ne := jet_add\nf := e";
    let input = [&b"verify\nadd\0"[..], lines].concat();
    assert_eq!(fuzzed(&Library, &input).expect("no disagreement"), 0);
    let found = fuzzed(&Mistaken, &input).expect_err("a mistake");
    assert!(found.input.len() + 20 < input.len(), "{found}");
    let [told, wanted] = &found.disagreement.answers;
    assert!(
        told.contains("errors: 1") && wanted.contains("errors: 2"),
        "{found}"
    );
}

#[test]
fn no_seed_shows_the_mistake() {
    let seeds = zaghdurem_host::vectors::cases().into_iter();
    let seeds = seeds.map(|case| [&case.jets[..], b"\0", &case.source].concat());
    oracle::with_stack(|| {
        let mut fuzzed = Fuzzed::new(&Mistaken);
        for seed in seeds {
            fuzzed.compare(&seed).expect("no disagreement");
        }
    });
}

#[test]
fn the_dictionary_has_every_kind_of_token_but_one() {
    let lines = include_str!("../tokens.dict").lines();
    let words = lines.filter_map(|line| line.strip_prefix('"')?.strip_suffix('"'));
    let mut kinds: Vec<u32> = words
        .filter(|word| !word.contains('\\'))
        .flat_map(|word| oracle::lex(word).tokens)
        .map(|token| token.kind)
        .collect();
    kinds.sort();
    kinds.dedup();
    // a literal CMR is longer than a word may be
    let cmr = oracle::lex(&format!("#{}", "5a".repeat(32))).tokens[0].kind;
    let wanted: Vec<u32> = (1..=34).filter(|&kind| kind != cmr).collect();
    assert_eq!(kinds, wanted);
}

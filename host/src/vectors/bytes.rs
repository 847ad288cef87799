//! Cases for UTF-8, for places in text of every kind, and for the length of a source.

use super::Case;

/// Sequences that are no character.
const ILL_FORMED: &[(&str, &[u8])] = &[
    ("lone tail 80", b"\x80"),
    ("lone tail BF", b"\xbf"),
    ("tail behind a character", b"\xc3\xa9\xa9"),
    ("C0 and a tail", b"\xc0\x80"),
    ("C1 and a tail", b"\xc1\xbf"),
    ("two bytes, no tail", b"\xc2 "),
    ("two bytes twice", b"\xc2\xc2\x80"),
    ("three bytes, one too small", b"\xe0\x9f\xbf"),
    ("three bytes, no tail", b"\xe2 "),
    ("three bytes, one tail", b"\xe2\x82 "),
    ("first surrogate", b"\xed\xa0\x80"),
    ("last surrogate", b"\xed\xbf\xbf"),
    ("pair of surrogates", b"\xed\xa0\xbd\xed\xb8\x80"),
    ("four bytes, one too small", b"\xf0\x8f\xbf\xbf"),
    ("four bytes, one tail", b"\xf0\x9f "),
    ("four bytes, two tails", b"\xf0\x9f\xa6 "),
    ("above 10FFFF", b"\xf4\x90\x80\x80"),
    ("F5", b"\xf5\x80\x80\x80"),
    ("five bytes", b"\xf8\x88\x80\x80\x80"),
    ("FE", b"\xfe"),
    ("FF", b"\xff"),
];

/// What is left of a character where the source ends.
const CUT: &[(&str, &[u8])] = &[
    ("cut in two bytes", b"\xc3"),
    ("cut in three bytes", b"\xe2"),
    ("cut in three bytes, later", b"\xe2\x82"),
    ("cut in four bytes", b"\xf0"),
    ("cut in four bytes, later", b"\xf0\x9f"),
    ("cut in four bytes, last", b"\xf0\x9f\xa6"),
];

/// Characters of two, three and four bytes at the edges of their ranges.
const WELL_FORMED: &str = "\u{80}\u{7ff}\u{800}\u{d7ff}\u{e000}\u{feff}\u{ffff}\u{10000}\u{10ffff}";

/// Lines before a place, each with characters of another length.
const FRONTS: [(&str, &str); 4] = [
    ("CR LF and tabs", "b := unit\r\n\r\n\t\t"),
    ("two-byte characters", "-- gr\u{fc}n \u{7ff}\nb := unit\n  "),
    (
        "three-byte characters",
        "b := unit -- \u{20ac}\u{65e5}\u{672c}\r\n-- \u{ffff}\n",
    ),
    (
        "four-byte characters",
        "-- \u{1f980}\n\n-- \u{10ffff}\r\n \t",
    ),
];

pub fn cases() -> Vec<Case> {
    let mut cases = ill_formed();
    cases.extend(each_place());
    cases.extend(well_formed());
    cases.extend(refused_places());
    cases.extend(lengths());
    cases
}

/// Each sequence behind characters of every length, and where the source ends.
fn ill_formed() -> Vec<Case> {
    let front = "a := unit\n-- \u{e9}\u{20ac}\u{1f980}\u{e9}".as_bytes();
    let whole =
        |&(name, bytes): &(&str, &[u8])| Case::new(name, [front, bytes, b"\nb := unit"].concat());
    let cut = |&(name, bytes): &(&str, &[u8])| Case::new(name, [front, bytes].concat());
    let mut cases: Vec<Case> = ILL_FORMED.iter().map(whole).collect();
    cases.extend(CUT.iter().map(cut));
    cases
}

/// The byte FF at each place of a text.
fn each_place() -> Vec<Case> {
    let text = "--\u{e9}\u{20ac}\n\u{1f980}=".as_bytes();
    let with = |at: usize| [&text[..at], b"\xff", &text[at..]].concat();
    (0..=text.len())
        .map(|at| Case::new(format!("FF before byte {at}"), with(at)))
        .collect()
}

fn well_formed() -> Vec<Case> {
    vec![
        Case::new(
            "characters at the edges, in comments",
            format!("--{WELL_FORMED}\na := unit --{WELL_FORMED}\r\nb := a"),
        ),
        Case::new("characters at the edges, outside", format!("a := unit {WELL_FORMED}")),
        Case::new("four bytes in a line's name", "a := unit\n-- \u{1f980}\n\u{1f980} := unit"),
        Case::new(
            "tokens between comments of all characters",
            "-- \u{e9}\r\na -- \u{20ac}\n\t:= -- \u{1f980}\n\r\n\tpair -- \u{7ff}\n\t(b)\tc -- \u{800}\nb\r:=\runit",
        ),
    ]
}

/// A source for every refusal from 3 to 13, behind lines of every kind.
fn refused_places() -> Vec<Case> {
    let bodies: [(&str, Vec<u8>); 12] = [
        ("refusal 3", b"a := \xff".to_vec()),
        ("refusal 4", b"a := @".to_vec()),
        ("refusal 5", b"a ".repeat(1_025)),
        ("refusal 6", b"a := )".to_vec()),
        ("refusal 6 at the end", b"a :=\n".to_vec()),
        ("refusal 7", b"a := pair unit\n\tconst 0x123".to_vec()),
        ("refusal 8", b"a := fail\n 0b10".to_vec()),
        (
            "refusal 9",
            [b"a := fail 0x".to_vec(), b"0".repeat(129)].concat(),
        ),
        ("refusal 10", b"a := comp unit jet_nosuch".to_vec()),
        ("refusal 11", b"a : 1 ->\n2^12".to_vec()),
        ("refusal 12", b"a := unit : 2^99999999999 -> 1".to_vec()),
        ("refusal 13", [b"a :=".to_vec(), b" (".repeat(129)].concat()),
    ];
    let mut cases = Vec::new();
    for (number, (name, body)) in bodies.iter().enumerate() {
        for front in [number, number + 1].map(|at| FRONTS[at % FRONTS.len()]) {
            let name = format!("{name} behind {}", front.0);
            cases.push(Case::new(name, [front.1.as_bytes(), body].concat()));
        }
    }
    cases
}

/// Sources about as long as they may be.
fn lengths() -> Vec<Case> {
    let filled = |front: &str, fill: &[u8], length: usize| {
        let bytes = front.bytes().chain(fill.iter().copied().cycle());
        bytes.take(length).collect::<Vec<u8>>()
    };
    let ended =
        |length: usize, last: u8| [filled("a := unit --", b"c", length - 1), vec![last]].concat();
    vec![
        Case::new("32,767 bytes", filled("a := unit --", b"c", 32_767)),
        Case::new("32,768 bytes", filled("a := unit --", b"c", 32_768)),
        Case::new("32,769 bytes", filled("a := unit --", b"c", 32_769)),
        Case::new("32,768 bytes, the last ill-formed", ended(32_768, 0xff)),
        Case::new("32,769 bytes, the last ill-formed", ended(32_769, 0xff)),
        Case::new("32,768 bytes, the last a line's end", ended(32_768, b'\n')),
        Case::new("name of 32,760 bytes", filled("a := ", b"n", 32_765)),
        Case::new(
            "two-byte characters up to 32,768 bytes",
            filled("--", "\u{e9}".as_bytes(), 32_768),
        ),
        Case::new(
            "character cut at 32,768 bytes",
            filled("-- ", "\u{20ac}".as_bytes(), 32_768),
        ),
        Case::new(
            "word of 65,536 bits",
            filled("a := const 0x", b"0f", 13 + 16_384),
        ),
    ]
}

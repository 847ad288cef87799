//! The texts that are compared: all short ones over telling bytes, and many long ones.

use super::{compare_text, Tallies, EVERY_OFFSET};
use crate::generate::{damage_bytes, generate};
use crate::random::{mixed, Random};
use crate::scale::Scale;

/// A part of the comparison: its name, and what it compares.
pub type Part = (&'static str, fn(&Scale, &mut Tallies));

/// The parts of the comparison of texts.
pub const PARTS: [Part; 8] = [
    ("text, all of up to 3 telling bytes", up_to_three_bytes),
    ("text, all of 4 telling bytes", four_bytes),
    ("text, all pairs of bytes and what may follow", all_pairs),
    ("text, single characters", single_characters),
    ("text, random bytes", random_bytes),
    ("text, random and damaged characters", random_characters),
    ("text, generated files", generated_files),
    ("text, long texts", long_texts),
];

/// Bytes at the boundaries of RFC 3629's table, and some plain ones.
const TELLING: [u8; 60] = [
    0x00, 0x01, 0x09, 0x0A, 0x0B, 0x0D, 0x1F, 0x20, b'#', b'(', b'-', b'0', b':', b'A', b'_', b'a',
    b'z', 0x7E, 0x7F, 0x80, 0x81, 0x85, 0x8E, 0x8F, 0x90, 0x91, 0x9E, 0x9F, 0xA0, 0xA1, 0xAF, 0xB0,
    0xBE, 0xBF, 0xC0, 0xC1, 0xC2, 0xC3, 0xDE, 0xDF, 0xE0, 0xE1, 0xE2, 0xEC, 0xED, 0xEE, 0xEF, 0xF0,
    0xF1, 0xF2, 0xF3, 0xF4, 0xF5, 0xF7, 0xF8, 0xFB, 0xFC, 0xFD, 0xFE, 0xFF,
];

/// Those that tell characters of four bytes apart.
const TELLING_FOUR: [u8; 21] = [
    0x0A, b'a', 0x7F, 0x80, 0x8F, 0x90, 0x9F, 0xA0, 0xBF, 0xC0, 0xC2, 0xDF, 0xE0, 0xED, 0xEF, 0xF0,
    0xF1, 0xF3, 0xF4, 0xF5, 0xFF,
];

fn up_to_three_bytes(_: &Scale, tallies: &mut Tallies) {
    for length in 0..=3 {
        all_strings(&TELLING, length, tallies);
    }
}

fn four_bytes(_: &Scale, tallies: &mut Tallies) {
    all_strings(&TELLING_FOUR, 4, tallies);
}

/// All strings of this length over a set of bytes.
fn all_strings(set: &[u8], length: u32, tallies: &mut Tallies) {
    let mut random = Random::new(0);
    for number in 0..set.len().pow(length) {
        let mut left = number;
        let mut source = Vec::with_capacity(length as usize);
        for _ in 0..length {
            source.push(set[left % set.len()]);
            left /= set.len();
        }
        compare_text(&source, &mut random, tallies);
    }
}

/// Every two bytes, alone and with bytes after them that could end a character or do not.
fn all_pairs(scale: &Scale, tallies: &mut Tallies) {
    const ENDS: [&[u8]; 6] = [b"", b"\x80", b"\x80\x80", b"\xbf\xbf", b"\x80\x7f", b"a"];
    let ends = if scale.quick { &ENDS[..3] } else { &ENDS[..] };
    let mut random = Random::new(0);
    for number in 0..=u16::MAX {
        for end in ends {
            let source = [&number.to_be_bytes()[..], end].concat();
            compare_text(&source, &mut random, tallies);
        }
    }
}

/// Every character in a full run; in a quick one those at boundaries and every hundredth or so.
fn single_characters(scale: &Scale, tallies: &mut Tallies) {
    let mut random = Random::new(0);
    for number in 0..=0x10FFFF_u32 {
        let boundary = matches!(
            number & 0xFFF,
            0 | 1 | 0x7F | 0x80 | 0x7FF | 0x800 | 0xFFE | 0xFFF
        );
        if scale.quick && !boundary && number % 97 != 0 {
            continue;
        }
        if let Some(character) = char::from_u32(number) {
            compare_text(
                character.encode_utf8(&mut [0; 4]).as_bytes(),
                &mut random,
                tallies,
            );
        }
    }
}

fn random_bytes(scale: &Scale, tallies: &mut Tallies) {
    let mut random = Random::new(mixed(scale.seed, 0xB17E));
    for _ in 0..scale.count {
        let length = short_length(&mut random);
        let telling = random.chance(1, 2);
        let source: Vec<u8> = (0..length)
            .map(|_| {
                if telling {
                    *random.pick(&TELLING)
                } else {
                    random.byte()
                }
            })
            .collect();
        compare_text(&source, &mut random, tallies);
    }
}

/// Valid text, and the same text with a few bytes changed.
fn random_characters(scale: &Scale, tallies: &mut Tallies) {
    let mut random = Random::new(mixed(scale.seed, 0xC4A2));
    for _ in 0..scale.count {
        let length = short_length(&mut random);
        let mut source = text_of_length(length, &mut random);
        compare_text(&source, &mut random, tallies);
        for _ in 0..random.between(1, 3) {
            damage_bytes(&mut source, &mut random);
        }
        compare_text(&source, &mut random, tallies);
    }
}

fn generated_files(scale: &Scale, tallies: &mut Tallies) {
    let mut random = Random::new(mixed(scale.seed, 0xF11E));
    for _ in 0..scale.count {
        let file = generate(&mut random);
        tallies.files[file.shape as usize] += 1;
        compare_text(&file.source, &mut random, tallies);
    }
}

/// Texts of many sizes up to 1 MiB, of one and of all character lengths, whole and damaged.
fn long_texts(scale: &Scale, tallies: &mut Tallies) {
    let mut random = Random::new(mixed(scale.seed, 0x1049));
    let sizes = [
        201,
        1_023,
        4_096,
        32_767,
        32_768,
        32_769,
        100 << 10,
        1 << 20,
    ];
    for _ in 0..if scale.quick { 1 } else { 8 } {
        for size in sizes {
            for mut source in [
                vec![b'a'; size],
                vec![b'\n'; size],
                text_of_length(size, &mut random),
            ] {
                compare_text(&source, &mut random, tallies);
                damage_bytes(&mut source, &mut random);
                compare_text(&source, &mut random, tallies);
            }
        }
    }
}

/// A length at which every offset is asked about, mostly far below the bound.
fn short_length(random: &mut Random) -> usize {
    if random.chance(1, 16) {
        random.between(0, EVERY_OFFSET)
    } else {
        random.below(40)
    }
}

/// Valid text of exactly this many bytes.
fn text_of_length(length: usize, random: &mut Random) -> Vec<u8> {
    let mut text = String::with_capacity(length);
    while text.len() < length {
        let next = any_character(random);
        text.push(if text.len() + next.len_utf8() <= length {
            next
        } else {
            'e'
        });
    }
    text.into_bytes()
}

/// A character of one to four bytes, line feeds among them.
fn any_character(random: &mut Random) -> char {
    let number = match random.below(8) {
        0 => usize::from(b'\n'),
        1..=3 => random.between(0, 0x7F),
        4 => random.between(0x80, 0x7FF),
        5 => random.between(0x800, 0xD7FF),
        6 => random.between(0xE000, 0xFFFF),
        _ => random.between(0x1_0000, 0x10_FFFF),
    };
    char::from_u32(number as u32).unwrap_or(char::REPLACEMENT_CHARACTER)
}

#[cfg(test)]
mod tests {
    use super::{text_of_length, TELLING};
    use crate::random::{mixed, Random};

    #[test]
    fn made_text_is_valid_and_as_long_as_asked() {
        let mut random = Random::new(3);
        for length in 0..300 {
            let text = text_of_length(length, &mut random);
            assert_eq!(text.len(), length);
            assert!(std::str::from_utf8(&text).is_ok());
        }
    }

    #[test]
    fn telling_bytes_are_sorted_and_different() {
        let plain = |byte: &u8| byte.is_ascii_graphic();
        let boundaries: Vec<u8> = TELLING.into_iter().filter(|byte| !plain(byte)).collect();
        assert!(boundaries.windows(2).all(|pair| pair[0] < pair[1]));
    }
}

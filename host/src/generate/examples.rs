//! Examples on the edge of single rules, alone and a few together.

use super::{literals, spaced, File, Shape};
use crate::random::Random;

/// Sources that each stand on an edge. The jet list for them knows `verify` and `add_32`.
const EXAMPLES: [&str; 74] = [
    "",
    " ",
    "\n",
    "--",
    "-- only a comment",
    "--\n",
    "a->b",
    "a--b := unit",
    "--b := unit",
    "a := jet_A",
    "a := jet_",
    "a := jet_verify",
    "a := jet_add_3",
    "jet_verify := unit",
    "a : 2^0 -> 1",
    "a : 1+2*2 -> 1",
    "a : 1+_ -> _*2+(1*2)",
    "a : 2^3 -> 1",
    "a : 2^1 -> 2^512",
    "a : 2^4294967295 -> 1",
    "a : 2^4294967296 -> 1",
    "a : 2^1024 -> 1",
    "a : _ -> _",
    "a := a",
    "a := b b := a",
    "a := b b := c c := a",
    "a := a a := a",
    "a : 1 -> 1",
    "main := pair a iden\na := unit\n",
    "main := nosuch",
    "a := unit a := (iden)",
    "a := const 0b111",
    "a := const _",
    "a := const 0b1",
    "a := const 0x1",
    "a := const 0x123",
    "a := fail _",
    "a := fail 0x00",
    "_ := unit",
    "prim := unit",
    "prim : 1 -> 1",
    "pri := prim",
    "a := _",
    "a := ?_",
    "a := ?prim",
    "a := ? a",
    "a := ?",
    "a :=",
    "a",
    ":= unit",
    "a := unit unit",
    "a := (unit",
    "a := unit)",
    "a := ()",
    "a := pair unit",
    "a := assertl unit #{ b }",
    "a := assertr #{ b } unit",
    "a := assertr #{ } unit",
    "a := assertl unit unit",
    "a := assertr unit #{ unit }",
    "a := unit : 1 ->",
    "a : 1",
    "a : 1 -> ( 2 ",
    "a : -> 1",
    "a:=unit:1->1b:2->2",
    "a := pair b b b := pair c c c := unit",
    "a := pair b c b := a c := a",
    "b := a a : 1 -> 1",
    "a : 1 -> 1 a := unit",
    "a := case (take a) drop b",
    "\u{feff}a := unit",
    "a := unit \u{a0}",
    "-- \u{65e5}\u{672c}\na := @",
    "a := disconnect iden ?h",
];

/// One example, or a few, one to a line.
pub fn example(random: &mut Random) -> File {
    let mut source = single(random);
    while random.chance(1, 4) {
        source.push('\n');
        source.push_str(&single(random));
    }
    File {
        shape: Shape::Example,
        source: source.into_bytes(),
        jets: b"verify\nadd_32\n".to_vec(),
    }
}

/// The tokens of one line that has a token.
pub(super) fn tokens(random: &mut Random) -> Vec<String> {
    let line = random.pick(&[
        "a := assertl unit #{ pair a b }",
        "a := assertr #{ unit } iden : 1 * 2 -> 2^8",
        "a : ( 1 + 2 ) * 2^4 -> _ + x",
        "main := comp ( pair ? h const 0b01 ) case take iden drop witness",
        "a := unit b := iden c : 1 -> 1",
        "a := disconnect injl injr unit b",
    ]);
    spaced(line)
}

/// An example of the list, or one with a literal CMR or a long literal.
fn single(random: &mut Random) -> String {
    match random.below(12) {
        0 => format!("a := assertl unit {}", literals::cmr(random)),
        1 => format!("a := assertr {} b", literals::cmr(random)),
        2 => {
            let cmr = literals::cmr(random);
            format!("a := assertl unit {}", &cmr[..64])
        }
        3 => {
            let digits = *random.pick(&[31, 32, 128, 129]);
            format!("a := fail {}", literals::hex(random, digits))
        }
        _ => random.text(&EXAMPLES),
    }
}

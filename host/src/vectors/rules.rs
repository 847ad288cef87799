//! Cases for the rules of tokens, grammar, literals, types, jets and names.

use super::Case;

type Table = &'static [(&'static str, &'static str)];

/// The rules page's own examples.
const EXAMPLES: Table = &[
    ("P1 empty source", ""),
    ("P2 no space before the arrow", "a->b"),
    ("P3 dashes inside a symbol", "a--b"),
    ("P3 dashes inside a name", "a--b := unit"),
    ("P3 comment", "--b"),
    ("P4 jet with a capital is a symbol", "jet_A"),
    ("P4 jet with a capital as a use", "a := jet_A"),
    ("P5 exponent 0", "2^0"),
    ("P6 operators of one rank", "a : 1+2*2 -> 1"),
    ("P7 absent operand", "a : 1+_ -> 1"),
    ("P8 bad power", "a : 2^3 -> 1"),
    ("P8 exponent out of range", "a : 2^4294967296 -> 1"),
    ("P9 name that uses itself", "a := a"),
    ("P10 names that use each other", "a := b b := a"),
    ("P11 the listing", "main := pair a iden\na := unit\n"),
    ("P12 incomplete", "a : 1 -> 1"),
    ("missing name is placed at its line", "main := nosuch"),
];

/// Token rules: what wins, what is skipped, and what matches nothing.
const TOKENS: Table = &[
    ("white space only", " \t\r\n \r\n"),
    ("comment of dashes", "----\n---\n--"),
    (
        "comment that looks like an arrow",
        "--> a := unit\na := unit",
    ),
    (
        "comment right behind a token",
        "a := (unit)--c\nb := a -- d",
    ),
    ("dashes right behind a keyword", "a := unit--c"),
    (
        "names of marks",
        "- := unit -a := - . := -a ' := . .5 := ' '' := .5 a-'.1 := ''",
    ),
    ("underscores", "__ := unit _a := __ _1 := _a _- := _1"),
    ("underscore before an arrow", "a : _-> _"),
    ("underscore apart from the arrow", "a : _ ->_"),
    (
        "keywords with a tail",
        "units := unit unit_ := units Unit := unit_ unit. := Unit case1 := unit.",
    ),
    ("keyword as a line's name", "unit := iden"),
    ("jet as a line's name", "jet_verify := unit"),
    (
        "near jets",
        "jet_ := jet jet := Jet_verify jet_aB := jet_ jet-a := jet_a- jet_a' := jet-a",
    ),
    ("jets by name", "a := jet_verify b := jet_add_32"),
    (
        "no white space",
        "a:=pair(unit)(iden):(1)*2->2^8b:1->2b1:1->_",
    ),
    ("two numbers in a row", "a : 12 -> 1"),
    ("digit and letter", "a : 1b -> 1"),
    ("caret without exponent", "a : 2^ -> 1"),
    ("exponent with leading 0", "a : 2^01 -> 1"),
    ("binary without digits", "a := const 0b"),
    ("binary up to a 2", "a := const 0b12"),
    ("hex without digits", "a := const 0x"),
    ("hex up to a capital", "a := const 0x0fF"),
    ("lone 0", "a := const 0"),
    ("lone 3", "a : 3 -> 1"),
    ("hash alone", "a := assertr # unit"),
    ("hash apart from its brace", "a := assertr # { unit } unit"),
    ("brace alone", "a := {"),
    ("colon apart from its sign", "a : = unit"),
    ("two colons", "a ::= unit"),
    ("arrow cut in two", "a : 1 - > 1"),
    ("greater sign", "a : 1 > 1"),
    ("vertical tab", "a := unit\x0b"),
    ("form feed", "a := unit \x0c b := unit"),
    ("zero byte", "a := \0unit"),
    ("delete", "\x7f"),
    ("no-break space", "a :=\u{a0}unit"),
    ("byte order mark", "\u{feff}a := unit"),
    ("letter that is not ASCII", "a\u{e9} := unit"),
];

/// Every kind of expression, and where its parts stand.
const EXPRESSIONS: Table = &[
    (
        "leaves",
        "a := iden b := unit c := witness d := ?h e := ?_ f := ?prim g := a",
    ),
    (
        "one child",
        "a := injl unit b := injr a c := take b d := drop injl injr take drop iden",
    ),
    (
        "two children",
        "a := comp unit iden b := case a a c := pair (a) b d := disconnect iden ?h",
    ),
    (
        "parentheses",
        "a := ((( unit ))) b := (pair (take (iden)) ((drop a)))",
    ),
    (
        "nested to the left",
        "a := pair pair pair unit iden witness ?h",
    ),
    (
        "nested to the right",
        "a := pair unit comp iden case witness a",
    ),
    (
        "assertions over expressions",
        "a := assertl unit #{ iden } b := assertr #{ take a } drop unit",
    ),
    (
        "assertion inside an assertion",
        "a := assertl assertr #{ unit } iden #{ assertl unit #{ (iden) } }",
    ),
    (
        "assertions over names",
        "a := assertr #{ b } c b := unit c := assertl b #{ b }",
    ),
    ("hole apart from its mark", "a := ? h b := ?\nh"),
    ("several lines on one", "a:=unit b:=iden c:1->1 d:=a:1->1"),
    (
        "one line over many",
        "a\n:=\npair\n  unit\n  iden\n:\n1\n->\n2\n",
    ),
];

/// Sources that the grammar does not accept.
const UNGRAMMATICAL: Table = &[
    ("name alone", "a"),
    ("name and white space", "a \n"),
    ("no expression", "a :="),
    ("no name", ":= unit"),
    ("two expressions", "a := unit unit"),
    ("second line without sign", "a := unit b"),
    ("open parenthesis", "a := (unit"),
    ("open parenthesis before a line", "a := (unit b := unit"),
    ("closed parenthesis", "a := unit)"),
    ("empty parentheses", "a := ()"),
    ("one part of two", "a := pair unit"),
    ("empty CMR", "a := assertr #{ } unit"),
    ("CMR without end", "a := assertl unit #{ unit"),
    ("assertl without CMR", "a := assertl unit unit"),
    ("assertr without CMR", "a := assertr unit #{ unit }"),
    ("hole without name", "a := ?"),
    ("hole of a keyword", "a := ?unit"),
    ("const of a name", "a := const b"),
    ("fail of a jet", "a := fail jet_verify"),
    ("expression of a type", "a := 1"),
    ("no arrow", "a : 1"),
    ("no source type", "a : -> 1"),
    ("no target type", "a := unit : 1 ->"),
    ("two arrows", "a : 1 -> 1 : 1 -> 1"),
    ("operator without operand", "a : 1 + -> 1"),
    ("type without end", "a : 1 -> ( 2 "),
    ("type of a keyword", "a : unit -> 1"),
    ("type of a jet", "a : jet_verify -> 1"),
];

/// Types and their records.
const TYPES: Table = &[
    (
        "types of every kind",
        "a : x -> 1 b : 2 -> 2^4 c : 1*2 -> 1+2",
    ),
    (
        "powers",
        "a : 2^1 -> 2^2 b : 2^4 -> 2^8 c : 2^16 -> 2^32 d : 2^64 -> 2^128 e : 2^256 -> 2^512",
    ),
    ("power over 512", "a : 1 -> 2^1024"),
    ("power that is none", "a : 2^6 * 2 -> 1"),
    ("largest exponent", "a : 2^4294967295 -> 1"),
    ("exponent that wraps to 2", "a : 1 -> 2^4294967298"),
    ("exponent over 64 bits", "a : 1 -> 2^18446744073709551618"),
    (
        "exponent of many digits",
        "a : 2^340282366920938463463374607431768211458 -> 1",
    ),
    ("grouped to the left", "a : 1+2*2+1 -> 1*(2+1)*2"),
    (
        "absent types",
        "a : _ -> _ b := unit : _ -> 1 c := unit : 1 -> _",
    ),
    ("absent on the left", "a : _+1*2 -> (_*2)+(1*2)"),
    ("absent inside", "a : (1+2)*(_+(1*2)) -> ((_))"),
    ("names as types", "a : prim -> a b : jet_ -> _a * units"),
    ("types in parentheses", "a : ((1)) -> (((2^8) * (x)))"),
    (
        "types of several lines",
        "a : 1 -> 2 a := unit : x -> _ a : y -> z b := a : 2 -> 1",
    ),
    (
        "refused type behind a good line",
        "a := unit\nb := a : 1 * 2^512 -> 2^513",
    ),
];

/// Legal and illegal names, first expressions, loops and roots.
const NAMES: Table = &[
    (
        "illegal names",
        "_ := unit prim := iden primx : 1 -> 1 prim' := nosuch a := unit",
    ),
    (
        "nearly illegal names",
        "pri := unit Prim := pri _prim := Prim priM := _prim aprim := priM",
    ),
    (
        "uses of illegal names",
        "prim := unit a := prim b := _ c := pair prim1 _",
    ),
    (
        "illegal lines keep their records",
        "_ := pair unit (take x) : 1 * 2 -> y\na := iden",
    ),
    ("repeated name", "a := unit a := (iden)"),
    (
        "repeated with types between",
        "a : 1 -> _ a := b a := (unit) b : 2 -> 2 c := a : _ -> 1 a := iden",
    ),
    (
        "repeated and illegal",
        "a := unit\n_ := a\na := a\nprim := a\na : 1 -> 1\na := b\n",
    ),
    (
        "type line before the expression",
        "a : 1 -> 1 b := a a := unit",
    ),
    ("incomplete name in use", "b := pair a a a : 1 -> 1"),
    ("incomplete name twice", "a : 1 -> 1 a : 2 -> 2"),
    (
        "missing in several places",
        "a := pair x (comp x y)\nb := injl x\n",
    ),
    ("loop of three", "a := b b := c c := a"),
    ("loop with a tail", "main := take a a := drop b b := injl a"),
    (
        "loop over the right child first",
        "a := pair b c b := a c := a",
    ),
    (
        "loop inside braces",
        "a := assertl unit #{ b } b := assertr #{ a } unit",
    ),
    ("two loops", "a := pair a b b := pair a b"),
    ("loop and illegal name", "a := pair prim b prim := a b := a"),
    (
        "repeated line would break the loop",
        "a := b a := unit b := a",
    ),
    ("hole and type name are no uses", "a := ?b : b -> a b := ?a"),
    ("shared names", "a := pair b b b := pair c c c := unit"),
    ("names in reverse", "c := unit b := c a := b"),
    (
        "order of names and nodes",
        "main := comp f g\ng := pair h witness\nh := take f\nf := iden\n",
    ),
    (
        "several roots",
        "a := unit b := iden c := pair a a d := nosuch e : 1 -> 1",
    ),
    (
        "a use inside braces is a use",
        "a := assertl unit #{ b } b := unit c := b",
    ),
];

const ALL: [Table; 6] = [EXAMPLES, TOKENS, EXPRESSIONS, UNGRAMMATICAL, TYPES, NAMES];

/// Lengths of literals, in binary and in hex digits, about those that `const` takes.
const WORD_DIGITS: [(usize, usize); 6] = [(1, 1), (2, 2), (3, 3), (8, 64), (255, 65), (257, 256)];

/// Lengths of literals, in binary and in hex digits, about those that `fail` takes.
const FAIL_DIGITS: [(usize, usize); 6] = [
    (127, 31),
    (128, 32),
    (129, 33),
    (511, 127),
    (512, 128),
    (513, 129),
];

pub fn cases() -> Vec<Case> {
    let tables = ALL.iter().flat_map(|table| table.iter());
    let mut cases: Vec<Case> = tables
        .map(|&(name, source)| Case::new(name, source))
        .collect();
    cases.extend(literals());
    cases.extend(cmrs());
    cases.extend(jets());
    cases
}

fn literals() -> Vec<Case> {
    let mut cases = vec![
        Case::new("const of three bits", "a := const 0b111"),
        Case::new("const of no bits", "a := const _"),
        Case::new("fail of no bits", "a := fail _"),
        Case::new("fail of a byte", "a := fail 0x00"),
        Case::new(
            "words of zeros and ones",
            "a := const 0b0000 b := const 0xffffffff c := const 0x0001",
        ),
    ];
    for (keyword, lengths) in [("const", WORD_DIGITS), ("fail", FAIL_DIGITS)] {
        for (binary, hex) in lengths {
            cases.push(literal(keyword, "0b", digits("10", binary)));
            cases.push(literal(keyword, "0x", digits("0123456789abcdef", hex)));
        }
    }
    cases
}

fn literal(keyword: &str, front: &str, digits: String) -> Case {
    let name = format!("{keyword} of {} digits behind {front}", digits.len());
    Case::new(name, format!("a := {keyword} {front}{digits}"))
}

/// Literal CMRs, and the five roots of which one holds such a literal.
fn cmrs() -> Vec<Case> {
    let (small, both) = (digits("0123456789abcdef", 64), digits("a0B1c2D3e4F5", 64));
    vec![
        Case::new("CMR of 64 digits", format!("a := assertl unit #{small}")),
        Case::new("CMR of 63 digits", format!("a := assertl unit #{}", &small[..63])),
        Case::new("CMR of 65 digits", format!("a := assertl unit #{small}0")),
        Case::new("CMR of 64 digits and a letter", format!("a := assertr #{small}unit")),
        Case::new("CMR of both cases", format!("a := assertr #{both} take b b := assertl a #{both}")),
        Case::new("CMR in the place of an expression", format!("a := #{small}")),
        Case::new(
            "five roots, one with a literal CMR",
            format!("a := unit b := assertl iden #{small} c := witness d := assertr #{{ a1 }} a1 a1 := unit e := ?h"),
        ),
        Case::new(
            "name over a literal CMR in use",
            format!("main := comp a b\na := assertl (take b) #{both} : x -> 1\nb := assertr #{small} iden\n"),
        ),
    ]
}

/// Jet lists of every form.
fn jets() -> Vec<Case> {
    let known = |name: &str, jets: &[u8]| Case::new(name, "a := jet_verify").with_jets(jets);
    let filled = |length: usize| [vec![b'\n'; length - 6], b"verify".to_vec()].concat();
    vec![
        known("no jet list", b""),
        known("list without end of line", b"add_32\nverify"),
        known("list with CR LF", b"verify\r\nadd_32\r\n"),
        known(
            "list with blanks and whole tokens",
            b" verify\nverify \njet_verify\nverif\nverify_\n",
        ),
        known(
            "list with empty pieces and other bytes",
            b"\n\n\xff\n\0\nverify\n\n",
        ),
        known("list of 65,534 bytes", &filled(65_534)),
        known("list of 65,535 bytes", &filled(65_535)),
        Case::new(
            "second jet not known",
            "a := jet_verify\nb := pair jet_add_32 jet_add_3",
        ),
        Case::new("jet of underscores", "a := jet__ b := jet_0").with_jets(*b"_\n0"),
    ]
}

/// The pattern over and over, `count` digits of it.
fn digits(pattern: &str, count: usize) -> String {
    pattern.chars().cycle().take(count).collect()
}

//! Answers that follow from document 01 by hand.

use super::*;

const JETS: &[u8] = b"add_8\nverify\n";

fn of(source: &str) -> Expected {
    oracle::with_stack(|| expected(source.as_bytes(), JETS))
}

fn refused(source: &[u8], no: u32, place: u32, value: u32) {
    let e = oracle::with_stack(|| expected(source, JETS));
    let text = String::from_utf8_lossy(source);
    assert_eq!((e.no, e.place, e.value), (no, place, value), "{text}");
    let none = Expected {
        no,
        place,
        value,
        ..Expected::default()
    };
    assert_eq!(e, none, "{text}");
}

fn prints(source: &str, listing: &str) {
    assert_eq!(sheet(source.as_bytes(), JETS), listing, "{source}");
}

/// The records of a table.
fn table<const N: usize>(e: &Expected, table: usize) -> Vec<[u32; N]> {
    assert_eq!(N, WIDTHS[table]);
    let records = e.tables[table].chunks(N);
    let records: Vec<[u32; N]> = records.map(|r| r.try_into().unwrap()).collect();
    assert_eq!(records.len() as u32, e.counts[table]);
    records
}

#[test]
fn listings() {
    prints("", "nodes 0\nroots 0\nerrors 0\n");
    prints(
        "main := pair a iden\na := unit\n",
        "nodes 4\n1 iden - 1:16 0 0\n2 unit a 2:1 0 0\n3 ref - 1:14 2 0\n4 pair main 1:1 3 1\nroots 1\nmain\nerrors 0\n",
    );
    prints(
        "a := a",
        "nodes 1\n1 missing a 1:1 0 0\nroots 1\na\nerrors 1\nmissing 1:1 a\n",
    );
    prints(
        "a := b b := a",
        "nodes 2\n1 missing b 1:8 0 0\n2 ref a 1:1 1 0\nroots 1\na\nerrors 1\nmissing 1:8 a\n",
    );
    prints(
        "a : 1 -> 1",
        "nodes 1\n1 noexpr a 1:1 0 0\nroots 1\na\nerrors 1\nincomplete 1:1 a\n",
    );
    prints(
        "main := nosuch",
        "nodes 1\n1 missing main 1:1 0 0\nroots 1\nmain\nerrors 1\nmissing 1:1 nosuch\n",
    );
    prints(
        "a := unit\n-- é\nprim := unit a := (iden)",
        "nodes 1\n1 unit a 1:1 0 0\nroots 1\na\nerrors 2\nillegal 3:1 prim\nrepeated 3:20 a\n",
    );
    prints("a := é", "refused 4 1:6\n");
    prints("a := \nb := )", "refused 6 2:3\n");
    prints("a :=", "refused 6 0:0\n");
    prints("a :=\n", "refused 6 0:0\n");
    prints("a := const 0b111", "refused 7 1:12 3\n");
    prints("a := const _", "refused 7 1:12\n");
    assert_eq!(sheet(&[b' '; 32_769], JETS), "refused 2 1:1\n");
    assert_eq!(sheet(b"a\n\xc3\xa9 \xff", JETS), "refused 3 2:3\n");
    assert_eq!(sheet(b"\xff", &[10; 65_537]), "refused jets\n");
    assert_eq!(sheet(b"", &[10; 65_536]), "nodes 0\nroots 0\nerrors 0\n");
}

#[test]
fn empty_source() {
    assert_eq!(of(""), Expected::default());
    assert_eq!(of(" -- a\n"), Expected::default());
    assert_eq!(of(&" ".repeat(32_768)), Expected::default());
}

#[test]
fn refusals() {
    refused(&[b'a'; 32_769], 2, 0, 0);
    refused(&[0xff; 32_769], 2, 0, 0);
    refused(b"= \xff", 3, 2, 0);
    refused(b"a \xc3", 3, 2, 0);
    refused(b"a \xed\xa0\x80", 3, 2, 0);
    refused(b"a->b", 4, 2, 0);
    refused(b"2^0", 4, 1, 0);
    refused(b") =", 4, 2, 0);
    refused(b"a := const 0b111", 7, 11, 3);
    refused(b"a := jet_nosuch", 10, 5, 0);
    refused(b"a : 2^3 -> 1", 11, 4, 3);
    refused(b"a : 2^4294967296 -> 1", 12, 4, 0);
    refused(b"jet_verify := unit", 6, 0, 0);
}

#[test]
fn token_limit() {
    // five tokens a line
    let full = "a : 1 -> 1 ".repeat(204);
    assert_eq!(of(&full).counts[TOKENS], 1020);
    let most = format!("{full}a := take unit");
    assert_eq!(of(&most).counts[TOKENS], 1024);
    refused(format!("{most} b").as_bytes(), 5, word(most.len()) + 1, 0);
    refused(format!("{most} =").as_bytes(), 4, word(most.len()) + 1, 0);
    refused(format!("{most} b =").as_bytes(), 5, word(most.len()) + 1, 0);
    refused(format!("={most} b").as_bytes(), 4, 0, 0);
    refused(format!(") {most} b").as_bytes(), 5, word(most.len()) - 2, 0);
    refused(
        format!("{full}a a a a").as_bytes(),
        6,
        word(full.len()) + 2,
        0,
    );
}

#[test]
fn depth_limit() {
    let taken = |count: usize, rest: &str| format!("a := {}{rest}", "take ".repeat(count));
    assert_eq!(of(&taken(127, "unit")).counts[NODES], 128);
    refused(taken(128, "unit").as_bytes(), 13, 645, 0);
    refused(taken(128, "").as_bytes(), 13, 645, 0);
    refused(taken(128, ")").as_bytes(), 13, 645, 0);
    refused(taken(128, "jet_nosuch").as_bytes(), 13, 645, 0);
    refused(taken(127, "jet_nosuch").as_bytes(), 10, 640, 0);
    refused(taken(127, "").as_bytes(), 6, 640, 0);
    refused(taken(127, "assertl unit").as_bytes(), 13, 648, 0);
    refused(taken(127, "assertr unit").as_bytes(), 6, 648, 0);
    refused(taken(127, "assertr #{").as_bytes(), 13, 650, 0);
    // what comes first in reading order
    let deep = taken(128, "unit");
    refused(format!("a := const 0b111 {deep}").as_bytes(), 7, 11, 3);
    refused(format!("{deep} a := const 0b111").as_bytes(), 13, 645, 0);
    refused(format!("{deep} =").as_bytes(), 4, 650, 0);
    let nested = |count| format!("a : {}2^3", "(".repeat(count));
    refused(nested(127).as_bytes(), 11, 131, 3);
    refused(nested(128).as_bytes(), 13, 132, 0);
    refused(taken(1021, "unit").as_bytes(), 13, 645, 0);
}

#[test]
fn records() {
    let cmr = format!("#{}", "0".repeat(64));
    let source =
        format!("a := assertl (take b) {cmr} : x -> 1 + _ * 2\nb := assertr #{{?h}} const 0b1");
    let e = of(&source);
    assert_eq!(e.counts, [25, 2, 6, 3, 2, 6, 0]);
    assert_eq!(
        table::<6>(&e, EXPRESSIONS),
        [
            [3, 19, 0, 0, 19, 1],
            [10, 14, 1, 0, 0, 0],
            [4, 5, 2, 0, 22, 65],
            [17, 121, 0, 0, 121, 1],
            [20, 130, 0, 0, 130, 3],
            [5, 110, 4, 5, 0, 0],
        ]
    );
    assert_eq!(
        table::<4>(&e, TYPES),
        [[1, 90, 1, 0], [2, 0, 0, 0], [3, 0, 0, 0]]
    );
    assert_eq!(table::<5>(&e, LINES), [[0, 1, 3, 1, 0], [105, 1, 6, 0, 0]]);
    assert_eq!(table::<4>(&e, NAMES), [[0, 1, 3, 6], [105, 1, 6, 3]]);
    assert_eq!(
        table::<8>(&e, NODES),
        [
            [20, 130, 0, 0, 0, 130, 3, 1],
            [17, 121, 0, 0, 0, 121, 1, 1],
            [5, 105, 2, 2, 1, 0, 0, 1],
            [3, 19, 0, 3, 0, 19, 1, 1],
            [10, 14, 0, 4, 0, 0, 0, 1],
            [4, 0, 1, 5, 0, 22, 65, 0],
        ]
    );
    let root = Root {
        number: 1,
        text: "a".to_owned(),
    };
    assert_eq!(e.roots, [root]);
}

#[test]
fn types() {
    let types = |text: &str| {
        let e = of(&format!("a : {text} -> _"));
        (e.tables[LINES][3], table::<4>(&e, TYPES))
    };
    let (one, two) = ([2, 0, 0, 0], [3, 0, 0, 0]);
    let whole = vec![one, two, [5, 1, 2, 0], two, [4, 3, 4, 0]];
    assert_eq!(types("1+2*2"), (5, whole));
    assert_eq!(types("1+_"), (0, vec![one]));
    assert_eq!(types("_+1*2"), (0, vec![one, two]));
    assert_eq!(
        types("(1+2)*(_+(1*2))"),
        (0, vec![one, two, [5, 1, 2, 0], one, two, [4, 4, 5, 0]])
    );
    assert_eq!(
        types("2*(1+2)"),
        (5, vec![two, one, two, [5, 2, 3, 0], [4, 1, 4, 0]])
    );
    assert_eq!(types("2^1"), (1, vec![two]));
    assert_eq!(
        types("2^2*2^512"),
        (3, vec![[6, 0, 0, 1], [6, 0, 0, 9], [4, 1, 2, 0]])
    );
    assert_eq!(types("xy"), (1, vec![[1, 4, 2, 0]]));
}

#[test]
fn names_and_errors() {
    let source =
        "_ := take x : 1 -> 1 a : 1 -> _ a := b a := (unit) b : 2 -> 2 c := a : _ -> 1 a := iden";
    let e = of(source);
    assert_eq!(
        table::<4>(&e, NAMES),
        [[21, 1, 3, 2], [51, 1, 0, 1], [62, 1, 5, 3]]
    );
    assert_eq!(
        table::<8>(&e, NODES),
        [
            [2, 51, 2, 0, 0, 51, 1, 1],
            [3, 21, 1, 1, 0, 37, 1, 1],
            [3, 62, 3, 2, 0, 67, 1, 0],
        ]
    );
    assert_eq!(
        table::<4>(&e, ERRORS),
        [[1, 0, 0, 1], [2, 45, 39, 1], [2, 83, 78, 1], [4, 51, 51, 1],]
    );
    assert_eq!((e.roots.len(), e.roots[0].number), (1, 3));
}

#[test]
fn the_parser_gives_the_first_four_tables() {
    let mut random = crate::random::Random::new(23);
    oracle::with_stack(|| {
        for _ in 0..600 {
            let file = crate::generate::generate(&mut random);
            let jets = Jets::new(&file.jets);
            let (parsed, lines) = parsed_with(&file.source, &jets);
            let whole = expected_with(&file.source, &jets);
            let text = file.source.escape_ascii();
            let row = |e: &Expected| (e.no, e.place, e.value);
            assert_eq!(row(&parsed), row(&whole), "{text}");
            assert_eq!(parsed.tables[..NAMES], whole.tables[..NAMES], "{text}");
            assert_eq!(parsed.counts[..NAMES], whole.counts[..NAMES], "{text}");
            assert_eq!(parsed.counts[NAMES..], [0; 3]);
            assert_eq!(lines.len(), whole.counts[LINES] as usize, "{text}");
        }
    });
}

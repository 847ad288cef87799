//! The oracle against document 01's examples and against cases on the edge, each said by hand.

use oracle::ast::{AstCmr, ExprInner, Type};
use oracle::node::Inner;
use oracle::{lex, read, with_stack, ErrorRow, Reading, Refusal, Root, Span};

fn tokens(source: &str) -> Vec<(u32, &str)> {
    let lexed = lex(source);
    assert_eq!(lexed.bad, None, "{source}");
    let text = |start, len| &source[start..start + len];
    let tokens = lexed.tokens.iter();
    tokens.map(|t| (t.kind, text(t.start, t.len))).collect()
}

fn reading(source: &str) -> Reading {
    read(source, b"add_8\nverify").unwrap_or_else(|r| panic!("{source}: {r:?}"))
}

fn refused(source: &str, no: u32, place: usize, value: u64) {
    match read(source, b"add_8\nverify") {
        Err(refusal) => assert_eq!(refusal, Refusal { no, place, value }, "{source}"),
        Ok(_) => panic!("{source}: read"),
    }
}

/// Kind, start, name or `-`, left, right, span, in-degree.
fn nodes(source: &str) -> Vec<(u32, usize, String, usize, usize, &str, usize)> {
    let nodes = reading(source).nodes;
    let text = |span: Span| &source[span.start..span.start + span.len];
    let row = nodes.into_iter().map(|n| {
        let name = n.name.unwrap_or("-".to_owned());
        let span = text(n.span);
        (n.kind, n.start, name, n.left, n.right, span, n.in_degree)
    });
    row.collect()
}

fn error(kind: u32, start: usize, name: &str) -> ErrorRow {
    ErrorRow {
        kind,
        start,
        name: name.to_owned(),
    }
}

/// Each root with its node, and whether step 3 drops it.
fn roots(source: &str) -> Vec<(String, usize, bool)> {
    let row = |root: Root| (root.name, root.node, root.dropped);
    reading(source).roots.into_iter().map(row).collect()
}

#[test]
fn all_kinds_of_tokens() {
    let cmr = format!("#{}", "aF".repeat(32));
    let texts = [
        ":=",
        "->",
        "#{",
        "(",
        ")",
        "+",
        "*",
        ":",
        "}",
        "?",
        "const",
        "assertl",
        "assertr",
        "fail",
        "disconnect",
        "case",
        "comp",
        "pair",
        "injl",
        "injr",
        "take",
        "drop",
        "unit",
        "iden",
        "witness",
        "_",
        "1",
        "2",
        "2^64",
        "0b01",
        "0x0f",
        &cmr,
        "jet_add_8",
        "a",
    ];
    for (text, kind) in texts.iter().zip(1..) {
        assert_eq!(tokens(text), [(kind, *text)]);
    }
    let source = texts.join(" ");
    let kinds = tokens(&source).into_iter().map(|t| t.0);
    assert!(kinds.eq(1..=34));
}

#[test]
fn longest_match() {
    assert_eq!(lex("a->b").bad, Some(2));
    assert_eq!(tokens("a ->b"), [(34, "a"), (2, "->"), (34, "b")]);
    assert_eq!(tokens("a--b"), [(34, "a--b")]);
    assert_eq!(tokens("--b"), []);
    assert_eq!(tokens("--"), []);
    assert_eq!(tokens("--b\n--\nc"), [(34, "c")]);
    assert_eq!(tokens("-- é\u{1f600}\nc"), [(34, "c")]);
    assert_eq!(tokens("-b - -"), [(34, "-b"), (34, "-"), (34, "-")]);
    assert_eq!(tokens("jet_"), [(34, "jet_")]);
    assert_eq!(tokens("jet_A"), [(34, "jet_A")]);
    assert_eq!(tokens("jet_aB"), [(34, "jet_aB")]);
    assert_eq!(tokens("jet_a"), [(33, "jet_a")]);
    assert_eq!(tokens("jet__"), [(33, "jet__")]);
    assert_eq!(tokens("jet_a-"), [(34, "jet_a-")]);
    assert_eq!(tokens("units"), [(34, "units")]);
    assert_eq!(tokens("unit.x unit"), [(34, "unit.x"), (23, "unit")]);
    assert_eq!(tokens("__ _"), [(34, "__"), (26, "_")]);
    assert_eq!(tokens("12"), [(27, "1"), (28, "2")]);
    assert_eq!(tokens("1a"), [(27, "1"), (34, "a")]);
    assert_eq!(tokens("2^1024"), [(29, "2^1024")]);
    assert_eq!(tokens("0b012"), [(30, "0b01"), (28, "2")]);
    assert_eq!(tokens("0x0fF"), [(31, "0x0f"), (34, "F")]);
    assert_eq!(tokens("::="), [(8, ":"), (1, ":=")]);
    assert_eq!(tokens("\t\r\n "), []);
}

#[test]
fn nothing_matches() {
    assert_eq!(lex("2^0").bad, Some(1));
    assert_eq!(lex("0b").bad, Some(0));
    assert_eq!(lex("0b2").bad, Some(0));
    assert_eq!(lex("0xF").bad, Some(0));
    assert_eq!(lex("3").bad, Some(0));
    assert_eq!(lex("a é").bad, Some(2));
    assert_eq!(lex("a\u{a0}").bad, Some(1));
    assert_eq!(lex("{").bad, Some(0));
    assert_eq!(lex("a = b").bad, Some(2));
    assert_eq!(lex("\0").bad, Some(0));
    assert_eq!(lex("a \x0b").tokens.len(), 1);
    let hex = |count| format!("#{}", "0".repeat(count));
    assert_eq!(lex(&hex(63)).bad, Some(0));
    assert_eq!(tokens(&hex(64)), [(32, hex(64).as_str())]);
    assert_eq!(lex(&hex(65)).bad, Some(65));
    assert_eq!(lex(&hex(65)).tokens.len(), 1);
    refused("a := é", 4, 5, 0);
    assert_eq!(oracle::lex_all_positions("a b"), 2);
    assert_eq!(oracle::lex_all_positions("a b c d ="), 8);
}

#[test]
fn positions() {
    let source = "aé\n\nb";
    let at = |offset| oracle::offset_to_position(source, offset);
    let all = [
        (1, 1),
        (1, 2),
        (1, 3),
        (1, 3),
        (2, 1),
        (3, 1),
        (3, 2),
        (3, 2),
    ];
    for (offset, place) in all.into_iter().enumerate() {
        assert_eq!(at(offset), place, "{offset}");
    }
}

#[test]
fn empty_source() {
    let r = reading("");
    assert!(r.tokens.is_empty() && r.lines.is_empty() && r.names.is_empty());
    assert!(r.nodes.is_empty() && r.roots.is_empty() && r.reported.is_empty());
}

#[test]
fn refusals() {
    refused("a->b", 4, 2, 0);
    refused("2^0", 4, 1, 0);
    refused("a", 6, 1, 0);
    refused("a ", 6, 2, 0);
    refused("a :=", 6, 4, 0);
    refused("a := )", 6, 5, 0);
    refused("a := unit b", 6, 11, 0);
    refused("a := unit unit", 6, 10, 0);
    refused("jet_verify := unit", 6, 0, 0);
    refused("a := pair unit", 6, 14, 0);
    refused("a := (unit b := unit", 6, 11, 0);
    refused("a := assertl unit unit", 6, 18, 0);
    refused("a := assertr unit unit", 6, 13, 0);
    refused("a := assertr #{unit unit", 6, 20, 0);
    refused("a := const a", 6, 11, 0);
    refused("a := fail jet_verify", 6, 10, 0);
    refused("a := ? unit", 6, 7, 0);
    refused("a : 1", 6, 5, 0);
    refused("a : -> 1", 6, 4, 0);
    refused("a : 1 -> 1 : 1 -> 1", 6, 11, 0);
    refused("a := const 0b111", 7, 11, 3);
    refused("a := const _", 7, 11, 0);
    refused("a := const 0xfff", 7, 11, 12);
    refused("a := fail _", 8, 10, 0);
    let hex = |count| format!("a := fail 0x{}", "f".repeat(count));
    refused(&hex(31), 8, 10, 124);
    assert_eq!(nodes(&hex(32)).len(), 1);
    assert_eq!(nodes(&hex(128)).len(), 1);
    refused(&hex(129), 9, 10, 516);
    refused("a := jet_nosuch", 10, 5, 0);
    refused("a : 2^3 -> 1", 11, 4, 3);
    refused("a : 2^1024 -> 1", 11, 4, 1024);
    refused("a : 2^4294967295 -> 1", 11, 4, 4294967295);
    refused("a : 2^4294967296 -> 1", 12, 4, 0);
}

#[test]
fn jet_lists() {
    let known = |name: &str, list: &[u8]| read(&format!("a := jet_{name}"), list).is_ok();
    assert!(known("x", b"x"));
    assert!(known("x", b"y\nx"));
    assert!(known("x", b"x\n"));
    assert!(known("x", b"\n\nx\n\ny"));
    assert!(!known("x", b""));
    assert!(!known("x", b"xx\nX\n x\nx\r\n"));
    assert!(!known("x", b"jet_x"));
    assert!(known("x", b"\xff\nx"));
}

#[test]
fn types() {
    let source_type = |text: &str| {
        let r = reading(&format!("a : {text} -> 1"));
        r.lines[0].arrow.0.clone()
    };
    let bin = |f: fn(Box<Type>, Box<Type>) -> Type, l, r| f(Box::new(l), Box::new(r));
    let sum = bin(Type::Sum, Type::One, Type::Two);
    let whole = bin(Type::Product, sum.clone(), Type::Two);
    assert_eq!(source_type("1+2*2"), Some(whole));
    assert_eq!(source_type("1+_"), None);
    assert_eq!(source_type("(1+_)*2"), None);
    assert_eq!(
        source_type("2*(1+2)"),
        Some(bin(Type::Product, Type::Two, sum))
    );
    assert_eq!(source_type("2^1"), Some(Type::Two));
    assert_eq!(source_type("2^512"), Some(Type::TwoTwoN(9)));
    assert_eq!(source_type("x"), Some(Type::Name("x".to_owned())));

    let r = reading("a : x -> _ a := unit : 1 -> 2 a := iden : _ -> 2^2 _ : 1 -> 1");
    assert_eq!(r.names.len(), 1);
    let x = Type::Name("x".to_owned());
    assert_eq!(r.names[0].source_types, [x, Type::One]);
    assert_eq!(r.names[0].target_types, [Type::Two, Type::TwoTwoN(1)]);
}

#[test]
fn literals() {
    let r =
        reading("a := const 0b1011 b := const 0xab c := fail 0x1ffffffffffffffffffffffffffffffff");
    let inner = |line: usize| match &r.lines[line].expression.as_ref().unwrap().inner {
        ExprInner::Inline(inner) => inner.clone(),
        other => panic!("{other:?}"),
    };
    match inner(0) {
        Inner::Word(word) => {
            assert_eq!((word.word_bytes(), word.n()), (&[0xb0][..], 2));
            assert_eq!(word.span(), Span { start: 11, len: 6 });
        }
        other => panic!("{other:?}"),
    }
    match inner(1) {
        Inner::Word(word) => assert_eq!((word.word_bytes(), word.n()), (&[0xab][..], 3)),
        other => panic!("{other:?}"),
    }
    match inner(2) {
        Inner::Fail(entropy) => {
            let mut bytes = [0; 64];
            bytes[0] = 0x1f;
            bytes[1..16].fill(0xff);
            bytes[16] = 0xf0;
            assert_eq!(entropy.entropy_bytes(), &bytes);
        }
        other => panic!("{other:?}"),
    }
}

#[test]
fn listing_example() {
    let source = "main := pair a iden\na := unit\n";
    let none = String::from("-");
    let expected = [
        (6, 15, none.clone(), 0, 0, "", 1),
        (7, 20, "a".to_owned(), 0, 0, "", 1),
        (3, 13, none, 2, 0, "a", 1),
        (14, 0, "main".to_owned(), 3, 1, "", 0),
    ];
    assert_eq!(nodes(source), expected);
    assert_eq!(roots(source), [("main".to_owned(), 4, false)]);
    assert!(reading(source).reported.is_empty());
}

#[test]
fn loops() {
    let a = || "a".to_owned();
    assert_eq!(nodes("a := a"), [(1, 0, a(), 0, 0, "a", 0)]);
    assert_eq!(roots("a := a"), [(a(), 1, true)]);
    assert_eq!(reading("a := a").step3_errors, [error(3, 0, "a")]);

    let source = "a := b b := a";
    let b = "b".to_owned();
    assert_eq!(
        nodes(source),
        [(1, 7, b, 0, 0, "a", 1), (3, 0, a(), 1, 0, "b", 0)]
    );
    assert_eq!(roots(source), [(a(), 2, true)]);
    assert_eq!(reading(source).step3_errors, [error(3, 7, "a")]);
}

#[test]
fn right_before_left() {
    // b is finished inside the right child, and there a is only begun; the left use of b then finds it finished
    let source = "a := pair b b b := a";
    let kinds: Vec<_> = nodes(source).iter().map(|n| (n.0, n.1, n.3, n.4)).collect();
    let expected = [(1, 14, 0, 0), (3, 12, 1, 0), (3, 10, 1, 0), (14, 0, 3, 2)];
    assert_eq!(kinds, expected);
    assert_eq!(nodes(source)[0].6, 2);
}

#[test]
fn incomplete() {
    let source = "a : 1 -> 1";
    assert_eq!(nodes(source), [(2, 0, "a".to_owned(), 0, 0, "a", 0)]);
    assert_eq!(reading(source).step3_errors, [error(4, 0, "a")]);
    assert_eq!(roots(source), [("a".to_owned(), 1, true)]);

    // the name's place is its first legal line, even a type line
    let source = "a : 1 -> 1 b := a a := unit";
    let starts: Vec<_> = nodes(source).iter().map(|n| (n.0, n.1)).collect();
    assert_eq!(starts, [(7, 0), (3, 11)]);
}

#[test]
fn illegal_and_repeated() {
    let source = "_ := a prim := unit primx : 1 -> 1 a := unit a := (iden) xprim := prim";
    let r = reading(source);
    let names: Vec<_> = r.names.iter().map(|n| n.text.as_str()).collect();
    assert_eq!(names, ["a", "xprim"]);
    let lines = [
        error(1, 0, "_"),
        error(1, 7, "prim"),
        error(1, 20, "primx"),
        error(2, 51, "a"),
    ];
    assert_eq!(r.line_errors, lines);
    assert_eq!(r.step3_errors, [error(3, 57, "prim")]);
    assert_eq!(r.reported.len(), 5);
    let kinds: Vec<_> = r.nodes.iter().map(|n| n.kind).collect();
    assert_eq!(kinds, [7, 1]);
}

#[test]
fn missing_under_several_roots() {
    let source = "b := take nosuch a := b c := b";
    let r = reading(source);
    assert_eq!(r.nodes[0].span, Span { start: 10, len: 6 });
    assert_eq!(r.nodes[0].start, 10);
    assert_eq!(r.step3_errors, vec![error(3, 10, "nosuch"); 2]);
    let names: Vec<_> = r.roots.iter().map(|root| root.name.as_str()).collect();
    assert_eq!(names, ["a", "c"]);
}

#[test]
fn spans_of_outermost_nodes() {
    let source = "main := nosuch b := ?h c := const 0b1 d := jet_verify e := ?_ f := witness";
    let rows: Vec<_> = nodes(source).iter().map(|n| (n.0, n.1, n.5)).collect();
    let expected = [
        (1, 0, "nosuch"),
        (17, 15, "h"),
        (20, 23, "0b1"),
        (19, 38, "jet_verify"),
        (17, 54, "_"),
        (16, 62, ""),
    ];
    assert_eq!(rows, expected);
}

#[test]
fn assertions() {
    let cmr = format!("#{}", "0".repeat(64));
    let source = format!("a := assertl unit {cmr} b := assertr {cmr} iden c := take b");
    let rows = nodes(&source);
    let rows: Vec<_> = rows.iter().map(|n| (n.0, n.3, n.4, n.5)).collect();
    let cmr = cmr.as_str();
    let expected = [
        (7, 0, 0, ""),
        (4, 1, 0, cmr),
        (6, 0, 0, ""),
        (5, 0, 3, cmr),
        (3, 4, 0, "b"),
        (10, 5, 0, ""),
    ];
    assert_eq!(rows, expected);
    // dropped without a word
    let dropped = [("a".to_owned(), 2, true), ("c".to_owned(), 6, true)];
    assert_eq!(roots(&source), dropped);
    assert!(reading(&source).reported.is_empty());

    let source = "a := assertl unit #{iden} b := assertr #{witness} drop unit";
    let rows: Vec<_> = nodes(source).iter().map(|n| (n.0, n.3, n.4)).collect();
    let expected = [
        (6, 0, 0),
        (7, 0, 0),
        (4, 2, 1),
        (7, 0, 0),
        (11, 4, 0),
        (16, 0, 0),
        (5, 6, 5),
    ];
    assert_eq!(rows, expected);
    assert!(roots(source).iter().all(|root| !root.2));
    match &reading(source).lines[0].expression.as_ref().unwrap().inner {
        ExprInner::AssertL(_, AstCmr::Expr(e)) => assert_eq!(e.position.span().start, 20),
        other => panic!("{other:?}"),
    }
}

#[test]
fn disconnect_has_two_children() {
    let source = "a := disconnect unit iden";
    let rows: Vec<_> = nodes(source).iter().map(|n| (n.0, n.3, n.4)).collect();
    assert_eq!(rows, [(6, 0, 0), (7, 0, 0), (15, 2, 1)]);
}

#[test]
fn deep_source() {
    let source = format!("a := {}unit", "take ".repeat(2000));
    with_stack(|| {
        let r = reading(&source);
        assert_eq!(r.nodes.len(), 2001);
        assert_eq!(oracle::run(&source, &oracle::Jets::new(b"")), Ok(2001));
        refused(&format!("a := {}", "(".repeat(2000)), 6, 2005, 0);
    });
}

//! The wrapper on small sources.

use super::tables::WIDTHS;
use super::*;

const SOURCE: &[u8] =
    b"main := pair a fail 0x00000000000000000000000000000001\na := (b)\nprim := a\nc : 1 -> 1\n";

#[test]
fn nodes_names_roots_and_errors_are_told() {
    let mut tables = Tables::new();
    let reading = read(SOURCE, b"", &mut tables).unwrap();
    let names: Vec<&[u8]> = reading.names().map(|name| name.text).collect();
    assert_eq!(names, [&b"main"[..], b"a", b"c"]);
    let kinds: Vec<NodeKind> = reading.nodes().map(|node| node.kind).collect();
    let wanted = [
        NodeKind::Fail,
        NodeKind::Missing,
        NodeKind::Reference,
        NodeKind::Pair,
        NodeKind::NoExpr,
    ];
    assert_eq!(kinds, wanted);
    let roots: Vec<(u32, u32)> = reading
        .roots()
        .map(|root| (root.name.get(), root.node.get()))
        .collect();
    assert_eq!(roots, [(1, 4), (3, 5)]);
    let errors: Vec<(ErrorKind, &[u8])> = reading.errors().map(|e| (e.kind, e.name)).collect();
    let wanted = [
        (ErrorKind::Illegal, &b"prim"[..]),
        (ErrorKind::Missing, b"b"),
        (ErrorKind::Incomplete, b"c"),
    ];
    assert_eq!(errors, wanted);
}

#[test]
fn texts_are_parts_of_the_source_itself() {
    let mut tables = Tables::new();
    let reading = read(SOURCE, b"", &mut tables).unwrap();
    let root = reading.roots().next().unwrap();
    assert_eq!(root.text.as_ptr(), SOURCE.as_ptr());
    let node = reading.node(root.node).unwrap();
    let fail = reading.node(node.right.unwrap()).unwrap();
    assert_eq!(reading.text(fail.span).len(), 34);
    let bytes = [0, 14, 15, 63, 64].map(|at| reading.literal_byte(fail.span, at));
    assert_eq!(bytes, [0, 0, 1, 0, 0]);
    let place = reading.position(reading.nodes().last().unwrap().start);
    assert_eq!((place.line, place.column), (4, 1));
}

#[test]
fn what_is_not_there_is_none() {
    let mut tables = Tables::new();
    let reading = read(b"a := unit", b"", &mut tables).unwrap();
    for number in [2, 1_024, 1_025, u32::MAX] {
        assert_eq!(reading.node(NodeNumber::new(number).unwrap()), None);
        assert_eq!(reading.name(NameNumber::new(number).unwrap()), None);
        assert_eq!(reading.name_text(NameNumber::new(number).unwrap()), b"");
    }
    assert_eq!(reading.text(Span::new(8, 2)), b"");
    assert_eq!(reading.text(Span::new(u32::MAX, 2)), b"");
}

#[test]
fn a_refusal_says_why_and_where() {
    let mut tables = Tables::new();
    let refusal = read(b"a := const 0b111", b"", &mut tables).unwrap_err();
    assert_eq!((refusal.reason, refusal.place), (Reason::WordLength, 11));
    assert_eq!(refusal.to_string(), "refused 7 at byte 11 (WordLength, 3)");
    let refusal = read(b"a :=", b"", &mut tables).unwrap_err();
    assert_eq!(refusal.to_string(), "refused 6 at byte 4 (ParseFailed)");
    for (reason, number) in Reason::ALL.into_iter().zip(1..) {
        assert_eq!(reason.number(), number);
    }
}

#[test]
fn a_listing_is_told_whole() {
    let mut tables = Tables::new();
    let text = list(b"a := jet_low", b"high\nlow", &mut tables);
    assert_eq!(text, b"nodes 1\n1 jet a 1:1 0 0\nroots 1\na\nerrors 0\n");
    assert_eq!(list(b"a := b \xff", b"", &mut tables), b"refused 3 1:8\n");
    let mut out = [b'.'; 16];
    let mut into = |room: usize| list_into(b"a := \xff", b"", &mut tables, &mut out[..room]);
    assert_eq!((into(13), into(14)), (None, Some(14)));
    assert_eq!(&out, b"refused 3 1:6\n..");
}

#[test]
fn tables_are_as_wide_as_the_library_has_them() {
    // SAFETY: the call takes nothing and answers with plain numbers.
    let limits = unsafe { crate::ffi::zaghdurem_limits() };
    let widths = [
        limits.token_words,
        limits.line_words,
        limits.expression_words,
        limits.type_words,
        limits.name_words,
        limits.node_words,
        limits.error_words,
        limits.work_words,
    ];
    assert_eq!(widths, WIDTHS.map(|width| width as u32));
    assert_eq!((limits.records, NodeKind::ALL.len()), (1_024, 20));
}

#[test]
fn lines_lead_to_their_expressions_and_types() {
    let mut tables = Tables::new();
    let reading = read(b"a := take (b) : 1 + x -> 2^8", b"", &mut tables).unwrap();
    let line = reading.lines().next().unwrap();
    let take = reading.expression(line.expression.unwrap()).unwrap();
    let used = reading.expression(take.left.unwrap()).unwrap();
    assert_eq!((take.kind, take.right), (NodeKind::Take, None));
    assert_eq!(reading.text(used.span), b"b");
    let Some(Type::Sum(left, right)) = reading.type_of(line.source.unwrap()) else {
        panic!("a sum");
    };
    assert_eq!(reading.type_of(left), Some(Type::One));
    assert!(matches!(reading.type_of(right), Some(Type::Name(span)) if reading.text(span) == b"x"));
    assert_eq!(reading.types().last(), Some(Type::Power(3)));
    let kinds: Vec<&str> = reading.tokens().map(|token| token.kind.word()).collect();
    assert_eq!(kinds[1..5], [":=", "take", "(", ""]);
    assert_eq!(reading.type_of(TypeNumber::new(5).unwrap()), None);
    assert_eq!(reading.expression(ExpressionNumber::new(3).unwrap()), None);
}

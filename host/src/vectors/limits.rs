//! Cases for the limits of tokens and of depth.

use super::Case;

/// What stands before and behind the inner expression, one level each; `#` is a literal CMR.
const LEVELS: [(&str, &str); 15] = [
    ("(", ")"),
    ("injl", ""),
    ("injr", ""),
    ("take", ""),
    ("drop", ""),
    ("case", "unit"),
    ("comp unit", ""),
    ("pair", "iden"),
    ("disconnect unit", ""),
    ("assertl", "#"),
    ("assertl", "#{ unit }"),
    ("assertl unit #{", "}"),
    ("assertr #{", "} unit"),
    ("assertr #{ unit }", ""),
    ("assertr #", ""),
];

/// The same for types.
const TYPE_LEVELS: [(&str, &str); 3] = [("(", ")"), ("1 + (", ")"), ("(", ") * x")];

/// What stands at depth 128, at the edge of the rule of depth.
const BOTTOMS: [(&str, &str); 8] = [
    ("assertl and a child", "assertl unit"),
    ("assertl and the end", "assertl"),
    ("assertr and no CMR", "assertr unit"),
    ("assertr and a brace", "assertr #{"),
    ("assertr and a literal", "assertr # )"),
    ("assertr and a literal at the end", "assertr #"),
    ("take and a const of three bits", "take const 0b111"),
    ("const of three bits", "const 0b111"),
];

pub fn cases() -> Vec<Case> {
    let mut cases = depths();
    cases.extend(bottoms());
    cases.extend(token_counts());
    cases
}

/// Every form of nesting, 128 and 129 deep.
fn depths() -> Vec<Case> {
    let mut cases = Vec::new();
    for depth in [128, 129] {
        for level in LEVELS {
            let name = format!("depth {depth} by {} .. {}", level.0, level.1);
            cases.push(Case::new(
                name,
                format!("a := {}", nested(level, depth, "unit")),
            ));
        }
        for level in TYPE_LEVELS {
            let name = format!("depth {depth} of a type by {} .. {}", level.0, level.1);
            let types = nested(level, depth, "2");
            cases.push(Case::new(name, format!("a := unit : {types} -> 1")));
        }
        let target = nested(TYPE_LEVELS[0], depth, "_");
        let name = format!("depth {depth} of a target type");
        cases.push(Case::new(name, format!("a : 1 -> {target}")));
    }
    cases
}

/// The bottom as the expression or type of this depth.
fn nested((before, behind): (&str, &str), depth: usize, bottom: &str) -> String {
    let levels = depth - 1;
    let mut parts = vec![before; levels];
    parts.push(bottom);
    parts.extend(vec![behind; levels]);
    parts.retain(|part| !part.is_empty());
    with_literals(&parts.join(" "))
}

/// The text with a literal CMR for each `#` that stands alone.
fn with_literals(text: &str) -> String {
    let literal = format!("#{}", "0Ff1".repeat(16));
    let tokens = text.split(' ').map(|token| match token {
        "#" => literal.as_str(),
        other => other,
    });
    tokens.collect::<Vec<&str>>().join(" ")
}

fn bottoms() -> Vec<Case> {
    let deep = "take ".repeat(127);
    BOTTOMS
        .iter()
        .map(|(name, bottom)| {
            let source = with_literals(&format!("a := {deep}{bottom}"));
            Case::new(format!("at depth 128: {name}"), source)
        })
        .collect()
}

/// Sources of about 1,024 tokens, with and without a byte that matches nothing.
fn token_counts() -> Vec<Case> {
    // 340 lines of three tokens
    let lines: String = (0..340).map(|n| format!("n{n} := n{}\n", n + 1)).collect();
    let most = format!("{lines}a : 1 -> ");
    let types = format!("a : 2 -> 1{}", " + x".repeat(509));
    vec![
        Case::new("1,023 tokens that are read", format!("{lines}n340 := unit")),
        Case::new("1,024 tokens and no target type", most.clone()),
        Case::new(
            "1,024 tokens that are read",
            format!("{lines}n340 := take unit"),
        ),
        Case::new("1,025 tokens", format!("{lines}n340 := take take unit")),
        Case::new("1,025 tokens in one line", format!("{types} + x")),
        Case::new("1,023 tokens in one line", types),
        Case::new("1,025th token before a bad byte", format!("{most}1 @")),
        Case::new("bad byte before the 1,025th token", format!("{most}@ 1")),
        Case::new("bad byte as the 1,025th token", format!("{most}\u{e9}")),
        Case::new("bad byte before 1,025 tokens", format!("@{most}1")),
        Case::new(
            "1,024 tokens and a comment",
            format!("{lines}n340 := take unit --b\n--"),
        ),
        Case::new(
            "1,025 tokens of which the first is refused",
            format!(") {most}"),
        ),
    ]
}

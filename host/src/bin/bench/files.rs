//! The texts that are timed. A size is given as what there is of the thing, so that half of a text is one of half the size.

use zaghdurem_host::tables::RULES;

pub const ASCII: &str =
    "main := pair (comp a iden) -- a line of a program\na := take drop unit : 1 -> 2^8\n";
pub const MIXED: &str = "main := unit -- gr\u{fc}n \u{20ac} \u{65e5}\u{672c}\u{8a9e} \u{1f980}\n";

/// The bytes and the tokens of a full file, and the bytes of a full jet list.
pub const FULL: usize = RULES.source_bytes as usize;
pub const TOKENS: usize = RULES.records as usize;
pub const JET_LIST: usize = 65_536;

/// The most lines of three tokens that a file holds, and the most leaves of a tree of pairs with a line for each.
pub const LINES: usize = 340;
pub const LEAVES: usize = 204;

/// A small file, and one of half its bytes and tokens.
pub const SMALL: &str = "main := pair a iden\na := unit\n";
pub const SMALL_HALF: &str = "a := take iden\n";

/// A small file of as many tokens that is refused at its end.
pub const SMALL_REFUSED: &str = "main := pair a iden\na := take\n";

/// A line with hardly any white space: two bytes of three begin a token.
pub const DENSE: &str = "a:=pair(take b)(c):1*2->(2+1)*_\n";

/// Lines with so much text in comments or in names that 32 KiB of them have no more than 1,024 tokens.
pub const COMMENTED: &str = "\
main := pair (comp first iden) (take second) : 1 -> 2^8
-- Both halves of the input go through the first step, since the second one only looks at what is left of them;
-- whoever changes the order here has to change it in the lines below too, or the types no longer fit together.
first := drop unit -- what the left half holds does not matter, so it is dropped before anything is done with it
second := witness -- comes with the spending, and its type follows from where it is used in the line at the top
-- What comes out is eight bits wide; the step behind this one counts on that and would not fit anything wider.
-- The names are kept short where they stand in a line with others, and long where they are looked up by people.
-- A line that only gives a type may stand anywhere; it is put next to the line with the expression all the same.
";
pub const LONG_NAMES: &str = "\
check_that_the_left_half_of_the_input_is_not_larger_than_the_limit := \
comp take_the_left_half_of_the_input_and_put_the_limit_beside_it jet_less_or_equal_of_two_words_of_32_bits
take_the_left_half_of_the_input_and_put_the_limit_beside_it := \
pair the_left_half_of_the_input_as_it_was_handed_in the_limit_that_was_agreed_upon_by_both_sides
";

/// A jet of a usual length, and one that differs from `last` in its last letter alone, so that a list has more of them and each
/// is compared to its end.
pub const USUAL_JET: &str = "add_with_carry_32";
pub const ALIKE_JET: &str = "lasa";

/// How many keys a typical contract has.
pub const KEYS: usize = 8;

/// The lines of a contract about one key.
const KEY: &str = "
-- Key NUMBER, without the half of it that BIP 340 leaves out. Whoever holds it has to sign too.
key_NUMBER := const 0xDIGITS : 1 -> 2^256
-- Comes with the spending.
signature_NUMBER := witness : 1 -> 2^512
-- Fails if this is no signature of the message by this key.
signed_NUMBER := comp (pair (pair key_NUMBER message) signature_NUMBER) jet_bip_0340_verify : 1 -> 1
";

/// Operations that a usual list has on words of several widths.
const OPERATIONS: [&str; 24] = [
    "add",
    "subtract",
    "multiply",
    "divide",
    "modulo",
    "negate",
    "increment",
    "decrement",
    "and",
    "or",
    "xor",
    "complement",
    "eq",
    "le",
    "lt",
    "min",
    "max",
    "median",
    "is_zero",
    "is_one",
    "all",
    "some",
    "full_add",
    "full_subtract",
];

/// A contract that a signature by each of so many keys satisfies: for each key its lines with types and comments, and a line
/// that runs all checks.
pub fn contract(keys: usize) -> String {
    let mut text = "\
-- Spends if the holder of every key below has signed the whole transaction.
message := jet_sig_all_hash : 1 -> 2^256
"
    .to_owned();
    for key in 1..=keys {
        let digits = format!("{key:x}").repeat(64);
        let lines = KEY.replace("NUMBER", &key.to_string());
        text.push_str(&lines.replace("DIGITS", &digits[..64]));
    }
    let checks: String = (1..keys).map(|key| format!("comp signed_{key} ")).collect();
    text.push_str(&format!("\nmain := {checks}signed_{keys} : 1 -> 1\n"));
    text
}

/// A jet list as a network may have it: operations on words of four widths, and behind them the jets of the contract.
pub fn usual_jets() -> Vec<u8> {
    let widths = [8, 16, 32, 64];
    let on_words = OPERATIONS
        .iter()
        .flat_map(|name| widths.map(|width| format!("{name}_{width}\n")));
    let list: String = on_words.collect();
    [
        list.as_bytes(),
        b"sha_256_block\nbip_0340_verify\nsig_all_hash\n",
    ]
    .concat()
}

/// So many tokens in as few bytes as lines of their kind need: lines of nine tokens that each use the next name, and a last one
/// that makes up the number.
pub fn short_lines(tokens: usize) -> String {
    let (whole, rest) = ((tokens - 7) / 9, (tokens - 7) % 9);
    let lines = (0..whole).map(|n| format!("n{n} := comp (take n{}) drop iden\n", n + 1));
    let takes = "take ".repeat(rest);
    let last = format!("n{whole} := {takes}pair pair unit iden witness\n");
    lines.chain([last]).collect()
}

/// So many bytes: short lines with as many tokens as that is of a full file, and a comment at the end of each line.
pub fn commented_lines(bytes: usize) -> String {
    let short = short_lines(TOKENS * bytes / FULL);
    let (lines, rest) = (short.lines().count(), bytes - short.len());
    let mut text = String::with_capacity(bytes);
    for (number, line) in short.lines().enumerate() {
        let filled = rest / lines + usize::from(number < rest % lines);
        text.push_str(&format!("{line} --{}\n", "c".repeat(filled - 3)));
    }
    text
}

/// So many lines that are one jet each.
pub fn jet_lines(jet: &str, lines: usize) -> String {
    (0..lines).map(|n| format!("n{n} := jet_{jet}\n")).collect()
}

/// A list of so many bytes that begins with the jet `first`, ends with the jet `last`, and has another over and over between.
pub fn jet_list(other: &str, bytes: usize) -> Vec<u8> {
    let mut list = b"first\n".to_vec();
    let (others, last) = (format!("{other}\n"), b"\nlast\n");
    let room = bytes - list.len() - last.len();
    list.extend(others.bytes().cycle().take(room));
    list.extend(last);
    list
}

/// A chain of so many names: a name that is an expression, and behind it so many more that are each the one before. Backwards,
/// the lines stand the other way round, so that each name is begun inside the one before it.
pub fn chain(links: usize, backwards: bool) -> String {
    let line = |number: usize| format!("n{number} := n{}\n", number - 1);
    let mut lines: Vec<String> = (1..=links).map(line).collect();
    lines.insert(0, "n0 := unit\n".to_owned());
    if backwards {
        lines.reverse();
    }
    lines.concat()
}

/// So many names that are each used once, all of them in one expression, which stands first.
pub fn names_used_once(leaves: usize) -> String {
    let names: Vec<String> = (0..leaves).map(|number| format!("n{number}")).collect();
    let lines = names.iter().map(|name| format!("{name} := unit\n"));
    let main = format!("main := {}\n", pairs(&names));
    [main].into_iter().chain(lines).collect()
}

/// A tree of pairs with these leaves, as flat as can be.
fn pairs(leaves: &[String]) -> String {
    match leaves {
        [leaf] => leaf.clone(),
        _ => {
            let (left, right) = leaves.split_at(leaves.len() / 2);
            format!("pair {} {}", pairs(left), pairs(right))
        }
    }
}

/// The pattern's lines over and over, as many as `length` bytes hold; spaces fill the rest.
pub fn lines_of_length(pattern: &str, length: usize) -> String {
    let mut text = String::with_capacity(length);
    for line in pattern.split_inclusive('\n').cycle() {
        if text.len() + line.len() > length {
            break;
        }
        text.push_str(line);
    }
    text.push_str(&" ".repeat(length - text.len()));
    text
}

/// The pattern over and over, `length` bytes of it; dots fill what a whole character does not.
pub fn text_of_length(pattern: &str, length: usize) -> String {
    let mut text = String::with_capacity(length);
    for next in pattern.chars().cycle() {
        if text.len() + next.len_utf8() > length {
            break;
        }
        text.push(next);
    }
    while text.len() < length {
        text.push('.');
    }
    text
}

//! The inputs that the program is run on, and what must come of each.

use crate::program::{reads_forbidden, Jets, Program, Source};
use zaghdurem_host::expected::sheet;
use zaghdurem_host::generate::generate;
use zaghdurem_host::random::Random;

/// The bytes of the longest jet list and of the longest source.
const JETS: usize = 65_536;
const SOURCE: usize = 32_768;

/// A program of one jet, and what is printed if the list has it or has it not.
const ONE_JET: &[u8] = b"main := jet_verify";
const KNOWN: &str = "nodes 1\n1 jet main 1:1 0 0\nroots 1\nmain\nerrors 0\n";
const UNKNOWN: &str = "refused 10 1:9\n";

const NO_JETS: &[u8] = b"main := unit";
const READ: &str = "nodes 1\n1 unit main 1:1 0 0\nroots 1\nmain\nerrors 0\n";

const LONG_LIST: &str = "refused jets\n";
const LONG_SOURCE: &str = "refused 2 1:1\n";

/// More than a pipe holds before its reader takes something, so that such a text cannot be written at once.
const PIPE: usize = 65_536;

/// What must come of a run.
#[derive(Clone)]
pub enum Must {
    /// This on standard output, nothing on standard error, and status 0.
    Print(String),
    /// Nothing on standard output, on standard error a text that begins so, and status 1.
    Fail(&'static str),
}

#[derive(Clone)]
pub struct Case {
    pub name: String,
    jets: Jets,
    source: Source,
    must: Must,
}

impl Case {
    /// What is wrong with what the program does, if anything is.
    pub fn fault(&self, program: &Program) -> Option<String> {
        let output = match program.run(&self.jets, &self.source) {
            Ok(output) => output,
            Err(error) => return Some(format!("cannot be run: {error}")),
        };
        let (right, code) = match &self.must {
            Must::Print(text) => {
                let right = output.stdout == text.as_bytes() && output.stderr.is_empty();
                (right, 0)
            }
            Must::Fail(said) => {
                let right = output.stdout.is_empty() && output.stderr.starts_with(said.as_bytes());
                (right, 1)
            }
        };
        let wanted = match &self.must {
            Must::Print(text) => format!("prints \"{}\"", front(text.as_bytes())),
            Must::Fail(said) => format!("prints nothing and says \"{said}\""),
        };
        // a program that is killed has no code
        (!right || output.status.code() != Some(code)).then(|| {
            let (printed, said) = (front(&output.stdout), front(&output.stderr));
            let status = output.status;
            format!("not as wanted ({wanted}): prints \"{printed}\", says \"{said}\", {status}")
        })
    }
}

/// The front of a text, to be shown.
fn front(text: &[u8]) -> String {
    let shown = &text[..text.len().min(100)];
    let more = if shown.len() < text.len() { "…" } else { "" };
    format!("{}{more}", shown.escape_ascii())
}

/// The cases that are picked by hand.
pub fn edges() -> Vec<Case> {
    [
        lists(),
        long_lists(),
        lists_of_no_use(),
        sources(),
        long_texts(),
    ]
    .concat()
}

fn case(name: &str, jets: Jets, source: Source, must: Must) -> Case {
    Case {
        name: name.to_owned(),
        jets,
        source,
        must,
    }
}

fn print(text: &str) -> Must {
    Must::Print(text.to_owned())
}

/// A program of one jet by a list, and what is printed.
fn one_jet(name: &str, jets: Jets, text: &str) -> Case {
    case(name, jets, Source::File(ONE_JET.to_vec()), print(text))
}

/// Lists that are read.
fn lists() -> Vec<Case> {
    let (file, link) = (Jets::File, Jets::Link);
    vec![
        one_jet("no list", Jets::Absent, UNKNOWN),
        one_jet("a link to no list", Jets::BrokenLink, UNKNOWN),
        one_jet("an empty list", file(vec![]), UNKNOWN),
        one_jet("a list", file(b"verify\n".to_vec()), KNOWN),
        one_jet("a link to a list", link(b"a\nverify".to_vec()), KNOWN),
        one_jet("65,535 bytes of list", file(list_of(JETS - 1)), KNOWN),
        one_jet("65,536 bytes of list", file(list_of(JETS)), KNOWN),
        one_jet("a link to 65,536", link(list_of(JETS)), KNOWN),
    ]
}

/// Lists that are too long, which is said whatever the source is.
fn long_lists() -> Vec<Case> {
    let refused = |name: &str, source| {
        let jets = Jets::File(list_of(JETS + 1));
        case(name, jets, source, print(LONG_LIST))
    };
    let (file, link) = (Jets::File, Jets::Link);
    let newline = [list_of(JETS), b"\n".to_vec()].concat();
    let source = Source::File;
    vec![
        one_jet("65,537 bytes of list", file(list_of(JETS + 1)), LONG_LIST),
        one_jet("a link to 65,537", link(list_of(JETS + 1)), LONG_LIST),
        one_jet("65,536 and a newline", file(newline), LONG_LIST),
        one_jet("200,000 bytes of list", file(list_of(200_000)), LONG_LIST),
        refused("65,537, no source", source(vec![])),
        refused("65,537, a source that is no UTF-8", source(vec![0xff])),
        refused("65,537, a long source", source(source_of(SOURCE + 1))),
        refused("65,537, a source that is a folder", Source::Folder),
    ]
}

/// Lists that cannot be read: they do not pass for empty ones. A file that may not be read is left out for a user who may.
fn lists_of_no_use() -> Vec<Case> {
    let fails = |name: &str, jets, source: &[u8]| {
        let must = Must::Fail("sheet: jets.txt: ");
        case(name, jets, Source::File(source.to_vec()), must)
    };
    let mut cases = vec![
        fails("a list that is a folder", Jets::Folder, NO_JETS),
        fails("a list that is a folder, a jet", Jets::Folder, ONE_JET),
        fails("a list that is a folder, no source", Jets::Folder, b""),
        fails("a list that links to itself", Jets::Loop, NO_JETS),
    ];
    if reads_forbidden().expect("a file that nobody may read") {
        println!("sheet: this user may read any file, so a list that may not be read is not tried");
    } else {
        let jets = Jets::Forbidden(b"verify\n".to_vec());
        cases.push(fails("a list that may not be read", jets, NO_JETS));
    }
    cases
}

/// Sources about the limit, some in two pieces of which the first ends inside a keyword, and one that cannot be read.
fn sources() -> Vec<Case> {
    let of = |name: &str, source, text| case(name, Jets::Absent, source, print(text));
    let file = |name: &str, bytes, text| of(name, Source::File(bytes), text);
    let two = |bytes: Vec<u8>| Source::Pipe(bytes[..10].to_vec(), bytes[10..].to_vec());
    let mut bad_end = source_of(SOURCE);
    bad_end[SOURCE - 1] = 0xff;
    let fails = Must::Fail("sheet: standard input: ");
    vec![
        file("an empty source", vec![], "nodes 0\nroots 0\nerrors 0\n"),
        file("a source", NO_JETS.to_vec(), READ),
        file("32,767 bytes of source", source_of(SOURCE - 1), READ),
        file("32,768 bytes of source", source_of(SOURCE), READ),
        file("32,769 bytes of source", source_of(SOURCE + 1), LONG_SOURCE),
        file("200,000 bytes of source", source_of(200_000), LONG_SOURCE),
        file(
            "32,769 bytes, no UTF-8",
            vec![0xff; SOURCE + 1],
            LONG_SOURCE,
        ),
        file("32,768 bytes, the last bad", bad_end, "refused 3 1:32768\n"),
        of("a source in two pieces", two(NO_JETS.to_vec()), READ),
        of("32,768 bytes in two pieces", two(source_of(SOURCE)), READ),
        of(
            "32,769 bytes in two pieces",
            two(source_of(SOURCE + 1)),
            LONG_SOURCE,
        ),
        case(
            "a source that is a folder",
            Jets::Absent,
            Source::Folder,
            fails,
        ),
    ]
}

/// A source whose listing is longer than what a pipe takes at once.
fn long_texts() -> Vec<Case> {
    let line = |number| format!("{}{number:03} := unit\n", "n".repeat(84));
    let source: String = (0..340).map(line).collect();
    let text = sheet(source.as_bytes(), b"");
    assert!(text.len() > PIPE && source.len() <= SOURCE);
    let source = Source::File(source.into_bytes());
    vec![case(
        "a long listing",
        Jets::Absent,
        source,
        Must::Print(text),
    )]
}

/// Generated files with their jet lists, and what the oracle says of them.
pub fn generated(count: usize, random: &mut Random) -> Vec<Case> {
    let files = (0..count).map(|number| {
        let file = generate(random);
        let text = sheet(&file.source, &file.jets);
        let (jets, source) = (Jets::File(file.jets), Source::File(file.source));
        case(
            &format!("generated file {number}"),
            jets,
            source,
            Must::Print(text),
        )
    });
    files.collect()
}

/// A list of so many bytes whose last piece, without a newline behind it, is the jet.
fn list_of(len: usize) -> Vec<u8> {
    let last = b"\nverify";
    let mut list = vec![b'v'; len - last.len()];
    list.extend(last);
    list
}

/// A program of one line, with spaces behind it that make it so many bytes.
fn source_of(len: usize) -> Vec<u8> {
    let mut source = NO_JETS.to_vec();
    source.resize(len, b' ');
    source
}

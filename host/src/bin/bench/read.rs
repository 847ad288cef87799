//! Times the readers, and listing, in one table.

use crate::files::*;
use crate::timing::{medians, work};
use std::hint::black_box;
use zaghdurem_host::tables::RULES;
use zaghdurem_host::zaghdurem::{self, Counts, Tables, LISTING_BYTES};

/// The words of all tables.
const WORDS: u32 = RULES.records
    * (RULES.token_words
        + RULES.line_words
        + RULES.expression_words
        + RULES.type_words
        + RULES.name_words
        + RULES.node_words
        + RULES.error_words
        + RULES.work_words);

/// How many of the files are listed too, from the first on.
const LISTED: usize = 4;

/// A text with its jet list.
struct Input {
    text: String,
    jets: Vec<u8>,
}

/// A file that is timed, and one of half its size.
struct File {
    kind: String,
    half: Input,
    full: Input,
}

/// How long a call takes, in nanoseconds; no Rust where it has no such call.
struct Times {
    library: f64,
    rust: Option<f64>,
}

/// The times of a file and of half of it.
struct Sizes {
    half: Times,
    full: Times,
}

/// Prints the table, with two rows for each file: its own, and that of half of it.
pub fn print_table() {
    println!("read: zaghdurem_read against the Rust's parse, which goes on to step 3 with stand-ins that make no nodes");
    println!("list: zaghdurem_list, which reads too, and that is timed with it; the Rust has none");
    println!("the library's tables are lent once for all runs and hold what the last call left");
    println!(
        "each call of the library clears their {WORDS} words itself, and that is timed with it"
    );
    println!("the Rust allocates in each call; its jet list becomes a set at the first look-up and stays one for all runs");
    println!("growth: the time of a file over that of half of it");
    println!();
    println!("| what | bytes | jet list | tokens | names | nodes | library | Rust | ratio | library's growth | Rust's growth | cleared between runs |");
    println!("|---|---|---|---|---|---|---|---|---|---|---|---|");
    let files = files();
    for file in &files {
        print_rows("read", file, read_times(file));
    }
    for file in &files[..LISTED] {
        print_rows("list", file, list_times(file));
    }
    println!();
}

/// Times both on a small file that is refused, whose tables are all zero afterwards, and prints a line.
pub fn print_refused() {
    let (source, jets) = (SMALL_REFUSED, oracle::Jets::new(b""));
    let mut tables = Tables::new();
    let [library, rust] = medians([
        work(|| zaghdurem::read(black_box(source.as_bytes()), b"", &mut tables).is_err()),
        work(|| oracle::run(black_box(source), &jets)),
    ]);
    println!(
        "read, a small file that is refused: {} bytes, library {}, Rust {}, ratio {:.3}",
        source.len(),
        shown(library),
        shown(rust),
        library / rust
    );
    println!();
}

/// The files of the table.
fn files() -> Vec<File> {
    let jets = |jet: &str, list: &str, other: &str| {
        let texts = [LINES / 2, LINES].map(|lines| jet_lines(jet, lines));
        let lists = [JET_LIST / 2, JET_LIST].map(|bytes| jet_list(other, bytes));
        let kind = format!("a full file of the {jet} jet of a full list{list}");
        with_jets(&kind, texts, lists)
    };
    let chains = |order: &str, backwards| {
        let texts = [LINES / 2, LINES].map(|links| chain(links, backwards));
        plain(&format!("the longest chain of names, {order}"), texts)
    };
    vec![
        plain("a small file", [SMALL_HALF, SMALL].map(str::to_owned)),
        with_jets(
            "a typical contract",
            [KEYS / 2, KEYS].map(contract),
            [usual_jets(), usual_jets()],
        ),
        plain("1,024 tokens", [TOKENS / 2, TOKENS].map(short_lines)),
        plain("32,768 bytes", [FULL / 2, FULL].map(commented_lines)),
        jets("first", "", USUAL_JET),
        jets("last", "", USUAL_JET),
        jets("last", " of jets alike", ALIKE_JET),
        chains("each the one before it", false),
        chains("each the one behind it", true),
        plain(
            "names each used once by one expression",
            [LEAVES / 2, LEAVES].map(names_used_once),
        ),
    ]
}

/// A file without jets, from its texts of both sizes.
fn plain(kind: &str, texts: [String; 2]) -> File {
    with_jets(kind, texts, [vec![], vec![]])
}

fn with_jets(kind: &str, [half, full]: [String; 2], [half_jets, full_jets]: [Vec<u8>; 2]) -> File {
    let input = |text, jets| Input { text, jets };
    File {
        kind: kind.to_owned(),
        half: input(half, half_jets),
        full: input(full, full_jets),
    }
}

/// Times the readers on both sizes. All four take turns.
fn read_times(file: &File) -> Sizes {
    let File { half, full, .. } = file;
    let [mut tables, mut full_tables] = [Tables::new(), Tables::new()];
    let [jets, full_jets] = [half, full].map(|input| oracle::Jets::new(&input.jets));
    let [library, full_library, rust, full_rust] = medians([
        work(|| read(half, &mut tables)),
        work(|| read(full, &mut full_tables)),
        work(|| oracle::run(black_box(&half.text), &jets)),
        work(|| oracle::run(black_box(&full.text), &full_jets)),
    ]);
    let times = |library, rust| Times {
        library,
        rust: Some(rust),
    };
    Sizes {
        half: times(library, rust),
        full: times(full_library, full_rust),
    }
}

/// Times the listing of both sizes, in turn.
fn list_times(file: &File) -> Sizes {
    let File { half, full, .. } = file;
    let [mut tables, mut full_tables] = [Tables::new(), Tables::new()];
    let [mut out, mut full_out] = [vec![0; LISTING_BYTES], vec![0; LISTING_BYTES]];
    let times = medians([
        work(|| list(half, &mut tables, &mut out)),
        work(|| list(full, &mut full_tables, &mut full_out)),
    ]);
    let [half, full] = times.map(|library| Times {
        library,
        rust: None,
    });
    Sizes { half, full }
}

fn read(input: &Input, tables: &mut Tables) -> Counts {
    let source = black_box(input.text.as_bytes());
    let reading = zaghdurem::read(source, black_box(&input.jets), tables);
    reading.expect("a text that is read").counts()
}

fn list(input: &Input, tables: &mut Tables, out: &mut [u8]) -> usize {
    let source = black_box(input.text.as_bytes());
    let listed = zaghdurem::list_into(source, black_box(&input.jets), tables, out);
    listed.expect("room for any listing")
}

/// Prints the row of a file, with its growth, and that of half of it.
fn print_rows(call: &str, file: &File, Sizes { half, full }: Sizes) {
    let growth = full.library / half.library;
    let rust_growth = full.rust.zip(half.rust).map(|(full, half)| full / half);
    let what = format!("{call}, {}", file.kind);
    print_row(&what, &file.full, &full, [Some(growth), rust_growth]);
    let what = format!("{call}, half of that");
    print_row(&what, &file.half, &half, [None, None]);
}

fn print_row(what: &str, input: &Input, times: &Times, growths: [Option<f64>; 2]) {
    let counts = read(input, &mut Tables::new());
    let or_none = |text: Option<String>| text.unwrap_or_else(|| "-".to_owned());
    let ratio = times
        .rust
        .map(|rust| format!("{:.3}", times.library / rust));
    let [growth, rust_growth] = growths.map(|growth| growth.map(|by| format!("{by:.2}")));
    println!(
        "| {what} | {} | {} | {} | {} | {} | {} | {} | {} | {} | {} | no |",
        input.text.len(),
        input.jets.len(),
        counts.tokens,
        counts.names,
        counts.nodes,
        shown(times.library),
        or_none(times.rust.map(shown)),
        or_none(ratio),
        or_none(growth),
        or_none(rust_growth)
    );
}

/// A time, in a unit that suits it.
fn shown(nanos: f64) -> String {
    if nanos < 1e6 {
        format!("{:.1} µs", nanos / 1e3)
    } else {
        format!("{:.2} ms", nanos / 1e6)
    }
}

#[cfg(test)]
mod tests {
    use super::*;
    use std::ops::Range;

    /// Which of the files are jets.
    const JETS: Range<usize> = 4..7;

    /// Of each file: bytes and tokens of half of it, and of the whole.
    fn sizes() -> Vec<[(usize, u32); 2]> {
        let size = |input: &Input| {
            let counts = read(input, &mut Tables::new());
            (input.text.len(), counts.tokens)
        };
        let sizes = files()
            .into_iter()
            .map(|file| [size(&file.half), size(&file.full)]);
        sizes.collect()
    }

    #[test]
    fn files_are_as_large_as_they_are_called() {
        let sizes = sizes();
        assert_eq!(sizes[0], [(15, 4), (30, 8)]);
        assert_eq!(sizes[2].map(|(_, tokens)| tokens), [512, 1_024]);
        assert_eq!(sizes[3], [(16_384, 512), (32_768, 1_024)]);
        for [(half_bytes, half), (bytes, tokens)] in sizes {
            assert!(half.abs_diff(tokens / 2) <= tokens / 16);
            assert!(half_bytes.abs_diff(bytes / 2) <= bytes / 16);
        }
        for file in &files()[JETS] {
            let lists = [&file.half.jets, &file.full.jets].map(Vec::len);
            assert_eq!(lists, [32_768, 65_536]);
        }
    }

    #[test]
    fn the_small_file_that_is_refused_is_refused_by_both() {
        let source = SMALL_REFUSED;
        assert!(zaghdurem::read(source.as_bytes(), b"", &mut Tables::new()).is_err());
        assert!(oracle::read(source, b"").is_err());
    }

    #[test]
    fn files_are_full_and_sound_and_only_jets_have_several_roots() {
        for (number, file) in files().iter().enumerate() {
            for input in [&file.half, &file.full] {
                let reading = oracle::read(&input.text, &input.jets).expect("a file that is read");
                let counts = read(input, &mut Tables::new());
                assert_eq!(counts.nodes as usize, reading.nodes.len());
                assert_eq!((counts.errors, reading.reported.len()), (0, 0));
                let roots = if JETS.contains(&number) {
                    reading.names.len()
                } else {
                    1
                };
                assert_eq!(reading.roots.len(), roots, "{}", file.kind);
            }
            let counts = read(&file.full, &mut Tables::new());
            assert!(number < 2 || (1_020..=1_024).contains(&counts.tokens));
        }
    }
}

//! The parts of the comparison, with one seed.

use crate::outcome::Outcome;
use std::fmt::Display;
use std::time::Instant;
use zaghdurem_host::generate::Shape;
use zaghdurem_host::run::Counted;
use zaghdurem_host::scale::Scale;
use zaghdurem_host::tally::Tally;
use zaghdurem_host::{access, lexer, parser, reader, tables, text, wrapped};

/// Whether the lines about each part are printed or left out.
#[derive(Clone, Copy)]
pub enum Log {
    Printed,
    Left,
}

impl Log {
    fn line(self, line: impl Display) {
        if let Log::Printed = self {
            println!("{line}");
        }
    }

    /// Prints a part's line, and its smallest disagreement if there is one.
    fn report(self, name: &str, tally: Tally) -> Tally {
        self.line(format_args!("{name}: {tally}"));
        if let Some(found) = &tally.smallest {
            self.line(found);
        }
        tally
    }

    /// Prints how many files of each family were made, if any were.
    fn files(self, made: &[u64]) {
        if made.iter().all(|&count| count == 0) {
            return;
        }
        let shown: Vec<String> = Shape::ALL
            .iter()
            .zip(made)
            .map(|(shape, count)| format!("{count} {shape:?}"))
            .collect();
        self.line(format_args!("  files made: {}", shown.join(", ")));
    }

    /// Prints how many calls had each answer: `done` if nothing is refused, or the refusal's number.
    fn answers(self, done: &str, answers: &[u64]) {
        let shown: Vec<String> = answers
            .iter()
            .enumerate()
            .map(|(no, count)| match no {
                0 => format!("{count} {done}"),
                no => format!("{count} refused {no}"),
            })
            .collect();
        self.line(format_args!("  answers: {}", shown.join(", ")));
    }

    /// Prints in how many files each difference from the Rust showed.
    fn departures(self, departures: &reader::Departures) {
        self.line("differences from the Rust, as docs/DIFFERENCES.md lists them, and how many files show each:");
        for (what, files) in departures.rows() {
            self.line(format_args!("  {files} {what}"));
        }
        let same = departures.same_roots;
        self.line(format_args!(
            "  {same} files without error and literal CMR: all roots are in the Rust's map, and no other"
        ));
    }
}

/// Runs every part of the comparison.
pub fn compare_all(scale: &Scale, log: Log) -> Outcome {
    let mut outcome = Outcome::default();
    let total = &mut outcome.library;
    total.add(log.report("limits", tables::compare_limits(scale)));
    total.add(log.report("words", tables::compare_words(scale)));
    compare_texts(scale, log, &mut outcome);
    compare_lexers(scale, log, &mut outcome);
    compare_parsers(scale, log, &mut outcome);
    for (name, compare) in access::PARTS {
        let mut tally = Tally::default();
        compare(scale, &mut tally);
        outcome.library.add(log.report(name, tally));
    }
    let mut wrapper = Tally::default();
    wrapped::compare(scale, &mut wrapper);
    let wrapper = log.report("wrapper, generated files", wrapper);
    outcome.library.add(wrapper);
    compare_readers(scale, log, &mut outcome);
    outcome
}

/// Compares what is told about texts, and apart from that the reference for positions with the Rust.
fn compare_texts(scale: &Scale, log: Log, outcome: &mut Outcome) {
    let mut reference = Tally::default();
    for (name, compare) in text::PARTS {
        let mut tallies = text::Tallies::default();
        compare(scale, &mut tallies);
        text::shrink_disagreement(&mut tallies.library);
        outcome.library.add(log.report(name, tallies.library));
        reference.add(tallies.reference);
        log.files(&tallies.files);
    }
    let name = "reference for positions against the Rust, apart";
    outcome.reference.add(log.report(name, reference));
}

/// Compares tokens; a comparison is one source with its whole table.
fn compare_lexers(scale: &Scale, log: Log, outcome: &mut Outcome) {
    let (mut total, mut answers) = (Tally::default(), [0; 6]);
    for (name, compare) in lexer::PARTS {
        let mut comparison = lexer::Comparison::default();
        compare(scale, &mut comparison);
        comparison.shrink_disagreement();
        for (sum, count) in answers.iter_mut().zip(comparison.answers) {
            *sum += count;
        }
        total.add(log.report(name, comparison.tally));
        log.files(&comparison.files);
    }
    log.line(format_args!("lexer, all parts: {total}"));
    log.answers("lexed", &answers);
    outcome.lexed += answers.iter().sum::<u64>();
    outcome.library.add(total);
}

/// Compares lines and bytes of literals. A comparison is one file with all its tables, or one byte.
fn compare_parsers(scale: &Scale, log: Log, outcome: &mut Outcome) {
    let start = Instant::now();
    let mut total = parser::Comparison::default();
    for part in parser::run(scale) {
        let (files, bytes) = (&part.comparison.tally, &part.comparison.bytes);
        if files.comparisons > 0 {
            log.report(part.name, files.clone());
        }
        if bytes.comparisons > 0 {
            log.report(&format!("{}: bytes of literals", part.name), bytes.clone());
        }
        log.files(&part.comparison.files);
        total.add(part.comparison);
    }
    log.line(format_args!(
        "parser, all parts: {} files, {}",
        total.parsed, total.tally
    ));
    log.line(format_args!(
        "bytes of literals, all parts: {}",
        total.bytes
    ));
    log.line(format_args!(
        "  time: {:.1} s",
        start.elapsed().as_secs_f64()
    ));
    log.answers("parsed", &total.answers);
    let unmet = (1..total.answers.len()).filter(|&no| total.answers[no] == 0);
    let unmet = unmet.map(|no| format!("parser: refusal {no}"));
    outcome.unmet.extend(unmet);
    outcome.parsed += total.parsed;
    outcome.library.add(total.tally);
    outcome.library.add(total.bytes);
}

/// Compares whole readings.
fn compare_readers(scale: &Scale, log: Log, outcome: &mut Outcome) {
    let start = Instant::now();
    let mut total = reader::Comparison::new(&reader::Library);
    for part in reader::run(&reader::Library, scale) {
        log.report(part.name, part.comparison.tallies.total());
        log.files(&part.comparison.met.made);
        log.line(format_args!("  {}", part.comparison.met));
        total.add(part.comparison);
    }
    log.line(format_args!("reader, all parts: {} files", total.met.files));
    for (what, tally) in total.tallies.all() {
        log.line(format_args!("  {what}: {tally}"));
    }
    let seconds = start.elapsed().as_secs_f64();
    log.line(format_args!("  time: {seconds:.1} s\n  {}", total.met));
    let kinds = total.met.node_kinds();
    log.line(format_args!("  nodes by kind: {kinds}"));
    log.departures(&total.departures);
    let unmet = [total.met.unmet(), total.departures.unmet()].concat();
    let unmet = unmet.iter().map(|what| format!("reader: {what}"));
    outcome.unmet.extend(unmet);
    outcome.read += total.met.files;
    outcome.library.add(total.tallies.total());
}

//! The comparison of whole readings over so many different files.

use std::time::Instant;
use zaghdurem_host::reader::{compare_files, Library, Many};

/// Compares at least so many different files, and prints a line for each round and what came in all. Whether all agree.
pub fn compare(seed: u64, files: usize) -> bool {
    println!("seed {seed}, {files} different files");
    let start = Instant::now();
    let many = compare_files(&Library, seed, files, |many| {
        println!("{}, {:.1} s", line(many), start.elapsed().as_secs_f64());
    });
    let (met, tallies) = (&many.comparison.met, &many.comparison.tallies);
    for (what, tally) in tallies.all() {
        println!("  {what}: {tally}");
    }
    println!("  {met}");
    if let Some(found) = tallies.smallest() {
        println!("the smallest disagreement:\n{found}");
    }
    tallies.disagreements() == 0
}

fn line(many: &Many) -> String {
    let (made, files) = (many.made, many.files());
    let total = many.comparison.tallies.total();
    format!("{made} files made, {files} of them different, {total}")
}

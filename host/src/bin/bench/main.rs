//! Times the library against the Rust in one run, on the same texts: the whole reader first, then its layers.

mod files;
mod layers;
mod read;
mod timing;

use timing::RUNS;

fn main() {
    println!("ratio: the library's time over the Rust's; below 1 the library is faster");
    println!("medians of {RUNS} runs, library and Rust in turn");
    if cfg!(debug_assertions) {
        println!("not built for release: these ratios say nothing");
    }
    read::print_table();
    read::print_refused();
    layers::print_lines();
}

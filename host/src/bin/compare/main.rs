//! Compares the library with the Rust, with one seed, with each of a range, or over so many different files.

mod arguments;
mod files;
mod outcome;
mod parts;
mod seeds;

use arguments::{asked, Asked, USAGE};
use parts::Log;
use std::process::ExitCode;
use zaghdurem_host::scale::Scale;

fn main() -> ExitCode {
    let asked = match asked(std::env::args().skip(1)) {
        Ok(asked) => asked,
        Err(message) => {
            eprintln!("{message}\n{USAGE}");
            return ExitCode::from(2);
        }
    };
    let agreed = match asked {
        Asked::One(scale) => compare_one(&scale),
        Asked::Each(scale, range) => {
            println!(
                "seeds {} to {}, {} inputs for each random part",
                range.start(),
                range.end(),
                scale.count
            );
            seeds::compare_each(range, |seed| {
                parts::compare_all(&Scale { seed, ..scale }, Log::Left)
            })
        }
        Asked::Files { seed, files } => files::compare(seed, files),
    };
    if agreed {
        ExitCode::SUCCESS
    } else {
        ExitCode::FAILURE
    }
}

/// Compares with one seed, and prints a line for each part. Whether all is well.
fn compare_one(scale: &Scale) -> bool {
    println!(
        "seed {}, {} inputs for each random part",
        scale.seed, scale.count
    );
    let outcome = parts::compare_all(scale, Log::Printed);
    println!("total: {}", outcome.library);
    outcome.print_faults();
    outcome.is_sound()
}

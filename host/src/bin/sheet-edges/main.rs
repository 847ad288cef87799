//! Runs the program `sheet` as `./sheet` does, on inputs at its edges and on generated files: `sheet-edges PROGRAM`.

mod cases;
mod program;

use cases::Case;
use program::Program;
use std::path::Path;
use std::process::ExitCode;
use zaghdurem_host::random::Random;

/// How many generated files the program is run on.
const FILES: usize = 400;

const SEED: u64 = 1;

fn main() -> ExitCode {
    let arguments: Vec<String> = std::env::args().skip(1).collect();
    let [path] = &arguments[..] else {
        eprintln!("usage: sheet-edges PROGRAM");
        return ExitCode::from(2);
    };
    let Ok(path) = Path::new(path).canonicalize() else {
        eprintln!("sheet-edges: {path} is missing; make it with `rt run` in crates/sheet");
        return ExitCode::from(2);
    };
    oracle::with_stack(|| run(&Program::new(path)))
}

/// Runs every case, and says which are wrong.
fn run(program: &Program) -> ExitCode {
    let (edges, files) = (
        cases::edges(),
        cases::generated(FILES, &mut Random::new(SEED)),
    );
    let wrong = faults(program, &edges) + faults(program, &files);
    println!(
        "sheet: {} edges and {} generated files, {wrong} wrong",
        edges.len(),
        files.len()
    );
    if wrong == 0 {
        ExitCode::SUCCESS
    } else {
        ExitCode::FAILURE
    }
}

/// How many cases are wrong; each is printed.
fn faults(program: &Program, cases: &[Case]) -> usize {
    let mut wrong = 0;
    for case in cases {
        if let Some(fault) = case.fault(program) {
            println!("sheet, {}: {fault}", case.name);
            wrong += 1;
        }
    }
    wrong
}

#[cfg(test)]
mod tests {
    use super::*;

    /// `cat` prints its input, and `true` nothing.
    #[test]
    fn a_program_that_is_not_the_sheet_is_found_in_every_case() {
        oracle::with_stack(|| {
            let cases = [cases::edges(), cases::generated(20, &mut Random::new(SEED))].concat();
            for name in ["cat", "true"] {
                let program = Program::new(name.into());
                assert_eq!(faults(&program, &cases), cases.len(), "{name}");
            }
        });
    }
}

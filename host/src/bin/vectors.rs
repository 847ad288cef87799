//! Stores the oracle's answers: `vectors write DIR`, `vectors check DIR`, `vectors list`.

use std::path::Path;
use std::process::ExitCode;
use zaghdurem_host::vectors;

const USAGE: &str = "usage: vectors write DIR | vectors check DIR | vectors list";

fn main() -> ExitCode {
    let arguments: Vec<String> = std::env::args().skip(1).collect();
    let arguments: Vec<&str> = arguments.iter().map(String::as_str).collect();
    let done = match arguments[..] {
        ["write", folder] => vectors::write(Path::new(folder)).map(|()| ExitCode::SUCCESS),
        ["check", folder] => vectors::difference(Path::new(folder)).map(reported),
        ["list"] => {
            list();
            Ok(ExitCode::SUCCESS)
        }
        _ => {
            eprintln!("{USAGE}");
            return ExitCode::from(2);
        }
    };
    done.unwrap_or_else(|error| {
        eprintln!("{error}");
        ExitCode::from(2)
    })
}

/// Says which file differs, if one does.
fn reported(difference: Option<String>) -> ExitCode {
    match difference {
        None => {
            println!("the list is as it is made");
            ExitCode::SUCCESS
        }
        Some(path) => {
            println!("differs: {path}");
            ExitCode::FAILURE
        }
    }
}

/// Prints each case's number and name.
fn list() {
    for (number, case) in vectors::cases().iter().enumerate() {
        println!("{number:03} {}", case.name);
    }
}

//! Prints the roots of the program on standard input, one name to a line.

use std::io::{self, Read, Write};
use zaghdurem_host::zaghdurem::{self, Tables};

fn main() -> Result<(), Box<dyn std::error::Error>> {
    let mut source = Vec::new();
    io::stdin().read_to_end(&mut source)?;
    let mut tables = Tables::new();
    let reading = zaghdurem::read(&source, b"", &mut tables)?;
    let mut out = io::stdout().lock();
    for root in reading.roots() {
        out.write_all(root.text)?;
        out.write_all(b"\n")?;
    }
    Ok(())
}

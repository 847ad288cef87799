//! The program `sheet`, run in a folder of its own.

use std::fs::{self, File};
use std::io::{self, Write};
use std::os::unix::fs::{symlink, PermissionsExt};
use std::path::{Path, PathBuf};
use std::process::{ChildStdin, Command, Output, Stdio};
use std::thread::sleep;
use std::time::Duration;

/// What jets.txt is in the folder where the program runs.
#[derive(Clone)]
pub enum Jets {
    Absent,
    File(Vec<u8>),
    /// A link to a list that stands elsewhere, as `./sheet` makes it.
    Link(Vec<u8>),
    /// A link to nothing.
    BrokenLink,
    /// A link to itself, which nobody can open.
    Loop,
    Folder,
    /// A file that nobody may read.
    Forbidden(Vec<u8>),
}

/// What standard input is.
#[derive(Clone)]
pub enum Source {
    File(Vec<u8>),
    /// A pipe that gives its bytes in two pieces, the second a while after the first.
    Pipe(Vec<u8>, Vec<u8>),
    Folder,
}

/// A program, and the folder that its runs share.
pub struct Program {
    path: PathBuf,
    scratch: PathBuf,
}

impl Program {
    pub fn new(path: PathBuf) -> Self {
        let name = path.file_name().unwrap_or_default().to_string_lossy();
        let scratch = format!("sheet-edges-{}-{name}", std::process::id());
        Program {
            path,
            scratch: std::env::temp_dir().join(scratch),
        }
    }

    /// Runs the program. What it prints is taken through pipes.
    pub fn run(&self, jets: &Jets, source: &Source) -> io::Result<Output> {
        self.clear()?;
        let folder = self.scratch.join("folder");
        fs::create_dir_all(&folder)?;
        self.put_jets(jets, &folder.join("jets.txt"))?;
        let mut child = Command::new(&self.path)
            .current_dir(&folder)
            .stdin(self.input(source)?)
            .stdout(Stdio::piped())
            .stderr(Stdio::piped())
            .spawn()?;
        if let (Source::Pipe(first, second), Some(input)) = (source, child.stdin.take()) {
            write_pieces(input, first, second)?;
        }
        child.wait_with_output()
    }

    fn put_jets(&self, jets: &Jets, path: &Path) -> io::Result<()> {
        let elsewhere = self.scratch.join("list");
        match jets {
            Jets::Absent => Ok(()),
            Jets::File(list) => fs::write(path, list),
            Jets::Link(list) => {
                fs::write(&elsewhere, list)?;
                symlink(&elsewhere, path)
            }
            Jets::BrokenLink => symlink(&elsewhere, path),
            Jets::Loop => symlink(path, path),
            Jets::Folder => fs::create_dir(path),
            Jets::Forbidden(list) => {
                fs::write(path, list)?;
                fs::set_permissions(path, fs::Permissions::from_mode(0))
            }
        }
    }

    fn input(&self, source: &Source) -> io::Result<Stdio> {
        match source {
            Source::File(bytes) => {
                let path = self.scratch.join("source");
                fs::write(&path, bytes)?;
                Ok(File::open(path)?.into())
            }
            Source::Pipe(..) => Ok(Stdio::piped()),
            Source::Folder => Ok(File::open(&self.scratch)?.into()),
        }
    }

    /// Takes away what the last run left.
    fn clear(&self) -> io::Result<()> {
        match fs::remove_dir_all(&self.scratch) {
            Err(error) if error.kind() != io::ErrorKind::NotFound => Err(error),
            _ => Ok(()),
        }
    }
}

impl Drop for Program {
    fn drop(&mut self) {
        if let Err(error) = self.clear() {
            eprintln!("{} is left: {error}", self.scratch.display());
        }
    }
}

/// Whether this user may read a file that nobody may, as the superuser of most systems may.
pub fn reads_forbidden() -> io::Result<bool> {
    let name = format!("sheet-edges-{}-forbidden", std::process::id());
    let path = std::env::temp_dir().join(name);
    fs::write(&path, b"")?;
    fs::set_permissions(&path, fs::Permissions::from_mode(0))?;
    let opened = File::open(&path).is_ok();
    fs::remove_file(path)?;
    Ok(opened)
}

/// Writes two pieces with a pause between them. A program that ends before it has read them is no fault of the pipe.
fn write_pieces(mut input: ChildStdin, first: &[u8], second: &[u8]) -> io::Result<()> {
    let written = input.write_all(first).and_then(|()| {
        sleep(Duration::from_millis(100));
        input.write_all(second)
    });
    match written {
        Err(error) if error.kind() == io::ErrorKind::BrokenPipe => Ok(()),
        written => written,
    }
}

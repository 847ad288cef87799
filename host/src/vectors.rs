//! A fixed list of sources with the answers that the oracle gives, to be stored and replayed without Rust.
//!
//! Case NNN is the files `i/NNN`, the source; `j/NNN`, the jet list; `o/NNN`, the whole sheet that the program prints, which
//! is the listing of the source; and `t/NNN`, the answer as words (see [`words`]). Each file has under 65,536 bytes.

mod bytes;
mod limits;
mod made;
mod rules;
mod sheets;

pub use made::SEED;

use crate::expected::{expected, sheet, Expected, WIDTHS};
use std::collections::{BTreeMap, BTreeSet};
use std::fs;
use std::io;
use std::path::Path;

const FOLDERS: [&str; 4] = ["i", "j", "o", "t"];

/// The jet list of a case that names no other.
const JETS: &[u8] = b"verify\nadd_32\n";

/// A source with the jet list it is read by, and what it is about.
#[derive(Clone, Debug, PartialEq, Eq)]
pub struct Case {
    pub name: String,
    pub source: Vec<u8>,
    pub jets: Vec<u8>,
}

impl Case {
    fn new(name: impl Into<String>, source: impl Into<Vec<u8>>) -> Self {
        Case {
            name: name.into(),
            source: source.into(),
            jets: JETS.to_vec(),
        }
    }

    fn with_jets(self, jets: impl Into<Vec<u8>>) -> Self {
        Case {
            jets: jets.into(),
            ..self
        }
    }
}

/// The list. A new case goes to its end, so that no other gets another number.
pub fn cases() -> Vec<Case> {
    [
        rules::cases(),
        bytes::cases(),
        limits::cases(),
        made::cases(),
        sheets::cases(),
    ]
    .concat()
}

/// All files of the list with their contents, by their paths.
pub fn files() -> BTreeMap<String, Vec<u8>> {
    oracle::with_stack(|| cases().iter().enumerate().flat_map(case_files).collect())
}

fn case_files((number, case): (usize, &Case)) -> [(String, Vec<u8>); 4] {
    let answer = expected(&case.source, &case.jets);
    let words = words(&case.source, &answer);
    let contents = [
        case.source.clone(),
        case.jets.clone(),
        sheet(&case.source, &case.jets).into_bytes(),
        words.iter().flat_map(|word| word.to_le_bytes()).collect(),
    ];
    let mut folders = FOLDERS.into_iter();
    contents.map(|content| {
        let folder = folders.next().expect("a folder for each file");
        (format!("{folder}/{number:03}"), content)
    })
}

/// The answer as words: number, place and value of the refusal, the seven counts, the records of the seven tables, and
/// line and column of each token.
fn words(source: &[u8], answer: &Expected) -> Vec<u32> {
    let mut words = vec![answer.no, answer.place, answer.value];
    words.extend(answer.counts);
    words.extend(answer.tables.iter().flatten());
    for token in answer.tables[0].chunks(WIDTHS[0]) {
        let text = std::str::from_utf8(source).expect("a source that is read is UTF-8");
        let (line, column) = oracle::offset_to_position(text, token[1] as usize);
        words.extend([line, column].map(|n| u32::try_from(n).expect("a word is a u32")));
    }
    words
}

/// Writes the list into a folder, and takes away what its four folders hold beside it.
pub fn write(folder: &Path) -> io::Result<()> {
    let files = files();
    for name in FOLDERS {
        fs::create_dir_all(folder.join(name))?;
    }
    for path in stored(folder)? {
        if !files.contains_key(&path) {
            fs::remove_file(folder.join(path))?;
        }
    }
    for (path, content) in &files {
        fs::write(folder.join(path), content)?;
    }
    Ok(())
}

/// The first file, by its path, that is missing, too many or other than the list has it.
pub fn difference(folder: &Path) -> io::Result<Option<String>> {
    let (files, stored) = (files(), stored(folder)?);
    let paths: BTreeSet<&String> = files.keys().chain(&stored).collect();
    for path in paths {
        let content = match stored.contains(path) {
            true => Some(fs::read(folder.join(path))?),
            false => None,
        };
        if content.as_ref() != files.get(path) {
            return Ok(Some(path.clone()));
        }
    }
    Ok(None)
}

/// The paths of the files that are stored.
fn stored(folder: &Path) -> io::Result<BTreeSet<String>> {
    let mut paths = BTreeSet::new();
    for name in FOLDERS {
        let inside = folder.join(name);
        if !inside.is_dir() {
            continue;
        }
        for entry in fs::read_dir(inside)? {
            paths.insert(format!("{name}/{}", entry?.file_name().to_string_lossy()));
        }
    }
    Ok(paths)
}

#[cfg(test)]
mod tests;

//! What the list promises.

use super::*;
use std::collections::HashSet;
use std::path::PathBuf;

/// An empty folder of this test's own.
fn folder(name: &str) -> PathBuf {
    let folder = std::env::temp_dir().join(format!("{name}-{}", std::process::id()));
    let _ = fs::remove_dir_all(&folder);
    folder
}

fn answers() -> Vec<Expected> {
    let cases = cases();
    oracle::with_stack(|| cases.iter().map(|c| expected(&c.source, &c.jets)).collect())
}

#[test]
fn writing_twice_gives_the_same_bytes() {
    assert_eq!(files(), files());
    let folder = folder("vectors-twice");
    write(&folder).unwrap();
    write(&folder).unwrap();
    assert_eq!(difference(&folder).unwrap(), None);
    fs::remove_dir_all(&folder).unwrap();
}

#[test]
fn a_file_changed_missing_or_too_many_is_told() {
    let folder = folder("vectors-changed");
    write(&folder).unwrap();
    let differs = || difference(&folder).unwrap();
    fs::write(folder.join("t/999"), "").unwrap();
    assert_eq!(differs(), Some("t/999".to_owned()));
    fs::write(folder.join("o/001"), "refused 4 1:2\n").unwrap();
    assert_eq!(differs(), Some("o/001".to_owned()));
    fs::remove_file(folder.join("i/000")).unwrap();
    assert_eq!(differs(), Some("i/000".to_owned()));
    write(&folder).unwrap();
    assert_eq!(differs(), None);
    fs::remove_dir_all(&folder).unwrap();
}

#[test]
fn the_list_is_small_and_no_case_stands_twice() {
    let (cases, files) = (cases(), files());
    assert!((300..=500).contains(&cases.len()), "{}", cases.len());
    let bytes: usize = files.values().map(Vec::len).sum();
    assert!(bytes <= 6_000_000, "{bytes}");
    // the program that replays the list reads each file into a buffer of 65,536 bytes
    assert!(files.values().all(|content| content.len() < 65_536));
    let inputs: HashSet<_> = cases
        .iter()
        .map(|case| (&case.source, &case.jets))
        .collect();
    assert_eq!(inputs.len(), cases.len());
}

#[test]
fn the_stored_list_is_this_one() {
    let replay = Path::new(env!("CARGO_MANIFEST_DIR")).join("../crates/vectors");
    assert_eq!(difference(&replay.join("data")).unwrap(), None);
    let program = fs::read_to_string(replay.join("src/main.rt")).unwrap();
    let count = format!("const CASES: u16 = {};", cases().len());
    assert!(program.contains(&count), "{count}");
    let seed = format!("seed {SEED}.");
    assert!(program.contains(&seed), "{seed}");
}

#[test]
fn each_refusal_is_met_twice() {
    let answers = answers();
    for no in 2..=13 {
        let met = answers.iter().filter(|answer| answer.no == no).count();
        assert!(met >= 2, "refusal {no}: {met}");
    }
}

/// The kinds that stand first in the records of a table.
fn kinds(answers: &[Expected], table: usize) -> BTreeSet<u32> {
    let records = answers
        .iter()
        .flat_map(|a| a.tables[table].chunks(WIDTHS[table]));
    records.map(|record| record[0]).collect()
}

#[test]
fn each_kind_of_record_is_met() {
    let answers = answers();
    assert_eq!(kinds(&answers, 0), (1..=34).collect());
    assert_eq!(kinds(&answers, 2), (3..=20).collect());
    assert_eq!(kinds(&answers, 3), (1..=6).collect());
    assert_eq!(kinds(&answers, 5), (1..=20).collect());
    assert_eq!(kinds(&answers, 6), (1..=4).collect());
}

#[test]
fn the_sheets_show_every_form_of_row() {
    let sheets: Vec<String> = files()
        .into_iter()
        .filter(|(path, _)| path.starts_with("o/"))
        .map(|(_, sheet)| String::from_utf8(sheet).expect("a sheet of text"))
        .collect();
    let rows: Vec<Vec<&str>> = sheets
        .iter()
        .flat_map(|sheet| sheet.lines())
        .map(|row| row.split(' ').collect())
        .collect();
    let shown = |wanted: fn(&[&str]) -> bool| rows.iter().any(|row| wanted(row));
    assert!(shown(|row| matches!(row, ["refused", _, "0:0"])));
    assert!(shown(|row| matches!(row, ["refused", "2", "1:1"])));
    assert!(shown(|row| matches!(row, ["refused", "11", _, _])));
    assert!(shown(|row| matches!(row, [_, "missing", "-", _, "0", "0"])));
    assert!(shown(|row| matches!(row, ["roots", "0"])));
    assert!(shown(
        |row| matches!(row, ["roots", count] if count.len() > 1)
    ));
    for kind in ["illegal", "repeated", "missing", "incomplete"] {
        assert!(rows.iter().any(|row| row[0] == kind && row.len() == 3));
    }
    assert!(sheets.iter().all(|sheet| sheet.ends_with('\n')));
}

#[test]
fn the_words_of_an_answer() {
    let source = b"-- \xc3\xa9\n a : 1 -> _";
    let words = oracle::with_stack(|| words(source, &expected(source, b"")));
    assert_eq!(words[..10], [0, 0, 0, 5, 1, 0, 1, 1, 1, 1]);
    assert_eq!(words[10..13], [34, 7, 1]);
    assert_eq!(words.len(), 10 + 5 * 3 + 5 + 4 + 4 + 8 + 4 + 5 * 2);
    assert_eq!(words[words.len() - 10..], [2, 2, 2, 4, 2, 6, 2, 8, 2, 11]);
}

//! The commands `sheet` and `cases`, run as a user would.

use std::path::PathBuf;
use std::process::{Command, Output};

const TEXT: &[u8] = b"input a; p -> a; monitor p;";
const SHEET: &[u8] = b"rows 1 letters 1\n0 0000000000000001 ok\nclean 1\nmet 0 0 1\ntotal 1\n";

/// Writes a file for one test; each test needs names of its own.
fn file(name: &str, bytes: &[u8]) -> PathBuf {
    let path = PathBuf::from(env!("CARGO_TARGET_TMPDIR")).join(name);
    std::fs::write(&path, bytes).unwrap();
    path
}

fn second(command: &str, files: &[PathBuf]) -> Output {
    let program = env!("CARGO_BIN_EXE_second");
    Command::new(program)
        .arg(command)
        .args(files)
        .output()
        .unwrap()
}

fn case(name: &str, trace: &[u8], sheet: &[u8]) -> Vec<u8> {
    let mut bytes = Vec::new();
    for string in [name.as_bytes(), TEXT, trace, sheet] {
        bytes.extend((string.len() as u32).to_le_bytes());
        bytes.extend(string);
    }
    bytes
}

#[test]
fn sheet_prints_the_sheet_of_two_files() {
    let output = second("sheet", &[file("rules", TEXT), file("trace", &[1, 1])]);
    assert_eq!(
        (output.stdout.as_slice(), output.status.code()),
        (SHEET, Some(0))
    );
}

#[test]
fn a_file_that_cannot_be_read_counts_as_empty() {
    let missing = PathBuf::from(env!("CARGO_TARGET_TMPDIR")).join("no such file");
    let output = second("sheet", &[file("rules alone", TEXT), missing.clone()]);
    let no_ticks = b"rows 1 letters 1\nclean 0\nmet 0 0 0\ntotal 0\n";
    assert_eq!(output.stdout, no_ticks);
    let output = second("sheet", &[missing.clone(), missing]);
    assert_eq!(output.stdout, b"refused 3 0\n");
}

#[test]
fn cases_counts_what_passed() {
    let one = file("one case", &case("one", &[1, 1], SHEET));
    let two = file(
        "two cases",
        &[case("two", &[1, 1], SHEET), case("three", &[1, 1], SHEET)].concat(),
    );
    let output = second("cases", &[one, two]);
    assert_eq!(output.stdout, b"3 passed, 0 failed\n");
    assert_eq!(output.status.code(), Some(0));
}

#[test]
fn cases_names_each_difference() {
    let cases = [
        case("good", &[1, 1], SHEET),
        case("wrong", &[1, 1, 1, 0], SHEET),
    ]
    .concat();
    let output = second("cases", &[file("wrong case", &cases)]);
    let foot = "met 0 0 1\\ntotal 1\\n";
    let expected = format!(
        "wrong: expected \"clean 1\\n{foot}\", came \"1 0000000000000000 bad 0\\n{foot}\"\n\
         1 passed, 1 failed\n"
    );
    assert_eq!(String::from_utf8_lossy(&output.stdout), expected);
    assert_eq!(output.status.code(), Some(1));
}

#[test]
fn a_file_that_is_no_row_of_cases_fails() {
    let cut = &case("cut", &[1, 1], SHEET)[..30];
    let output = second("cases", &[file("cut case", cut)]);
    let printed = String::from_utf8_lossy(&output.stdout).into_owned();
    assert_eq!(printed.lines().last(), Some("0 passed, 1 failed"));
    assert_eq!(output.status.code(), Some(1));
}

#[test]
fn other_commands_are_not_understood() {
    for (command, files) in [
        ("cases", vec![]),
        ("sheet", vec![file("lone", TEXT)]),
        ("run", vec![]),
    ] {
        let output = second(command, &files);
        assert_eq!((output.status.code(), output.stdout.len()), (Some(2), 0));
        assert!(!output.stderr.is_empty());
    }
}

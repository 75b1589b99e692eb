//! `second --batch` and `second stage`, run as a user would.

use std::io::{Read, Write};
use std::path::PathBuf;
use std::process::{Command, Output, Stdio};

use second::batch::{self, Case};

const SECOND: &str = env!("CARGO_BIN_EXE_second");
const TEXT: &[u8] = b"input a; p -> a; monitor p;";
const SHEET: &[u8] = b"rows 1 letters 1\n0 0000000000000001 ok\nclean 1\nmet 0 0 1\ntotal 1\n";
const REFUSED: &[u8] = b"refused 3 0\n";

/// A look at 0, a take of 1, and what they answer.
const CALLS: &[u8] = b"L\0\0\0\0\0\0\0\0T\x01\0\0\0\0\0\0\0";
const ANSWERS: &[u8] = b"rows 1 letters 1\nlook bad 0\ntake ok touched 1\nmet 0 0 1\ntotal 1\n";

/// The bytes of a case.
fn case(kind: u8, strings: &[&[u8]]) -> Vec<u8> {
    let strings = strings.iter().map(|string| string.to_vec()).collect();
    let mut bytes = Vec::new();
    Case { kind, strings }.write(&mut bytes).unwrap();
    bytes
}

fn good_case() -> Vec<u8> {
    case(b'S', &[b"2", TEXT, &[1, 1]])
}

fn refused_case() -> Vec<u8> {
    case(b'S', &[b"2", b"", b""])
}

fn calls_case() -> Vec<u8> {
    case(b'T', &[b"4", TEXT, CALLS])
}

/// The bytes of a string.
fn string(bytes: &[u8]) -> Vec<u8> {
    let mut string = Vec::new();
    batch::write_string(&mut string, bytes).unwrap();
    string
}

fn entry(name: &str, case: Vec<u8>, answer: &[u8]) -> Vec<u8> {
    [string(name.as_bytes()), case, string(answer)].concat()
}

/// A good and a refused case.
fn two_entries() -> Vec<u8> {
    let good = entry("good", good_case(), SHEET);
    let refused = entry("refused", refused_case(), REFUSED);
    [good, refused].concat()
}

/// A good case, one of calls, and a refused case.
fn two_kinds() -> Vec<u8> {
    let good = entry("good", good_case(), SHEET);
    let calls = entry("calls", calls_case(), ANSWERS);
    let refused = entry("refused", refused_case(), REFUSED);
    [good, calls, refused].concat()
}

/// Writes a file for one test; each test needs names of its own.
fn file(name: &str, bytes: &[u8]) -> PathBuf {
    let path = PathBuf::from(env!("CARGO_TARGET_TMPDIR")).join(name);
    std::fs::write(&path, bytes).unwrap();
    path
}

/// What `second --batch` does with these bytes.
fn answered(name: &str, cases: &[u8]) -> Output {
    let cases = std::fs::File::open(file(name, cases)).unwrap();
    let mut command = Command::new(SECOND);
    command.arg("--batch").stdin(cases).output().unwrap()
}

/// What `second stage` prints of a file, and its exit status; `program` is put
/// behind the file.
fn staged(file: &PathBuf, program: &[&str]) -> (String, Option<i32>) {
    run(Command::new(SECOND).arg("stage").arg(file).args(program))
}

/// The same with the cases of one kind alone.
fn staged_kind(kind: &str, file: &PathBuf, program: &[&str]) -> (String, Option<i32>) {
    let mut command = Command::new(SECOND);
    run(command
        .args(["stage", "--kind", kind])
        .arg(file)
        .args(program))
}

fn run(command: &mut Command) -> (String, Option<i32>) {
    let output = command.output().unwrap();
    let printed = String::from_utf8(output.stdout).unwrap();
    (printed, output.status.code())
}

/// What `second stage` prints where a program says just these bytes.
fn staged_with(name: &str, entries: &[u8], said: &[u8]) -> (String, Option<i32>) {
    let said = file(&format!("{name} said"), said);
    staged(&file(name, entries), &["cat", said.to_str().unwrap()])
}

// Answering.

#[test]
fn each_case_is_answered_in_order() {
    let cases = [good_case(), refused_case(), good_case()].concat();
    let output = answered("three", &cases);
    let expected = [string(SHEET), string(REFUSED), string(SHEET)].concat();
    assert_eq!(output.stdout, expected);
    assert_eq!((output.status.code(), output.stderr.len()), (Some(0), 0));
}

#[test]
fn no_cases_have_no_answers() {
    let output = answered("none", b"");
    assert_eq!((output.status.code(), output.stdout.len()), (Some(0), 0));
}

#[test]
fn a_past_literal_is_answered() {
    let text = b"input F[1:0]; p -> F == past(F) || F == 4; monitor p;";
    let fork = b"input F[1:0]; p -> F == past(F) || F == 3; monitor p;";
    let held = b"input F[1:0]; p -> F == past(F); monitor p;";
    let cases = [
        case(b'S', &[b"2", text, b""]),
        case(b'S', &[b"2", fork, b""]),
        case(b'S', &[b"2", held, &[0, 1, 2]]),
    ];
    let output = answered("past", &cases.concat());
    let run = b"rows 1 letters 1\n0 0000000000000000 ok\n1 0000000000000002 bad 0\n\
                met 0 0 1\ntotal 1\n";
    let expected = [
        string(b"refused 6 40\n"),
        string(b"refused 12 0 0\n"),
        string(run),
    ];
    assert_eq!(output.stdout, expected.concat());
}

#[test]
fn calls_are_answered() {
    let refused = case(b'T', &[b"4", b"", CALLS]);
    let cases = [calls_case(), good_case(), refused].concat();
    let output = answered("calls", &cases);
    let expected = [string(ANSWERS), string(SHEET), string(REFUSED)].concat();
    assert_eq!(output.stdout, expected);
    assert_eq!((output.status.code(), output.stderr.len()), (Some(0), 0));
}

#[test]
fn calls_that_cannot_be_read_end_the_program() {
    let cut = &CALLS[..17];
    let odd = [CALLS, b"?\0\0\0\0\0\0\0\0"].concat();
    for (name, calls) in [("calls cut", cut), ("calls odd", &odd)] {
        let bad = case(b'T', &[b"4", TEXT, calls]);
        let output = answered(name, &[calls_case(), bad, good_case()].concat());
        assert_eq!(output.stdout, string(ANSWERS));
        assert_eq!(output.status.code(), Some(1));
        let said = String::from_utf8_lossy(&output.stderr).into_owned();
        assert_eq!(
            said,
            "second: a call is cut short, or neither look nor take\n"
        );
    }
}

#[test]
fn an_answer_comes_before_the_next_case_is_there() {
    let mut command = Command::new(SECOND);
    command.arg("--batch");
    command.stdin(Stdio::piped()).stdout(Stdio::piped());
    let mut child = command.spawn().unwrap();
    let mut cases = child.stdin.take().unwrap();
    let mut answers = child.stdout.take().unwrap();
    for _ in 0..3 {
        cases.write_all(&good_case()).unwrap();
        cases.flush().unwrap();
        assert_eq!(batch::read_string(&mut answers).unwrap(), SHEET);
    }
    drop(cases);
    let mut rest = Vec::new();
    answers.read_to_end(&mut rest).unwrap();
    assert_eq!((rest.len(), child.wait().unwrap().code()), (0, Some(0)));
}

#[test]
fn a_kind_not_known_ends_the_program() {
    let unknown = case(b'?', &[b"2", TEXT, b""]);
    let output = answered("unknown", &[good_case(), unknown, good_case()].concat());
    assert_eq!(output.stdout, string(SHEET));
    assert_eq!(output.status.code(), Some(1));
    let said = String::from_utf8_lossy(&output.stderr).into_owned();
    assert_eq!(said, "second: no case of kind ? with 3 strings is known\n");
}

#[test]
fn a_case_cut_short_ends_the_program() {
    let cut = &good_case()[..30];
    let output = answered("cut", &[&good_case(), cut].concat());
    assert_eq!(output.stdout, string(SHEET));
    assert_eq!(output.status.code(), Some(1));
    assert_eq!(output.stderr, b"second: cut short\n");
}

// Checking a stage file here.

#[test]
fn the_cases_of_a_stage_file_are_counted() {
    let printed = staged(&file("stage", &two_entries()), &[]);
    assert_eq!(printed, ("2 passed, 0 failed\n".to_string(), Some(0)));
}

#[test]
fn each_case_that_differs_is_named() {
    let wrong = entry("wrong one", good_case(), REFUSED);
    let unknown = entry("odd one", case(b'?', &[]), b"");
    let stage = file("stage differs", &[two_entries(), wrong, unknown].concat());
    let (printed, status) = staged(&stage, &[]);
    let lines: Vec<&str> = printed.lines().collect();
    assert_eq!(lines.len(), 3, "{printed}");
    assert!(lines[0].starts_with("wrong one: expected \"refused 3 0\\n\", came \"rows 1"));
    assert_eq!(
        lines[1],
        "odd one: no case of kind ? with 0 strings is known"
    );
    assert_eq!((lines[2], status), ("2 passed, 2 failed", Some(1)));
}

#[test]
fn a_file_without_cases_or_cut_short_fails() {
    let mut cut = two_entries();
    cut.pop();
    for (name, bytes) in [("stage empty", vec![]), ("stage cut", cut)] {
        let (printed, status) = staged(&file(name, &bytes), &[]);
        assert_eq!(printed.lines().last(), Some("0 passed, 1 failed"));
        assert_eq!(status, Some(1));
    }
    let missing = PathBuf::from(env!("CARGO_TARGET_TMPDIR")).join("no such stage");
    assert_eq!(staged(&missing, &[]).1, Some(1));
}

// Checking the cases of one kind.

#[test]
fn all_kinds_are_checked_if_none_is_named() {
    let stage = file("kinds", &two_kinds());
    for program in [&[][..], &[SECOND, "--batch"]] {
        let printed = staged(&stage, program);
        assert_eq!(printed, ("3 passed, 0 failed\n".to_string(), Some(0)));
    }
}

#[test]
fn the_cases_of_a_kind_are_counted() {
    let stage = file("kinds counted", &two_kinds());
    for program in [&[][..], &[SECOND, "--batch"]] {
        let (printed, status) = staged_kind("S", &stage, program);
        let expected = "2 passed, 0 failed; 2 of 3 cases are of kind S\n";
        assert_eq!((printed.as_str(), status), (expected, Some(0)));
        let (printed, status) = staged_kind("T", &stage, program);
        let expected = "1 passed, 0 failed; 1 of 3 cases are of kind T\n";
        assert_eq!((printed.as_str(), status), (expected, Some(0)));
    }
}

#[test]
fn only_the_cases_of_the_kind_are_put_to_the_program() {
    let said = file("calls said", &string(ANSWERS));
    let program = ["cat", said.to_str().unwrap()];
    let stage = file("kinds put", &two_kinds());
    let (printed, status) = staged_kind("T", &stage, &program);
    let expected = "1 passed, 0 failed; 1 of 3 cases are of kind T\n";
    assert_eq!((printed.as_str(), status), (expected, Some(0)));
    let (printed, status) = staged_kind("S", &stage, &program);
    assert_eq!(
        printed.lines().last(),
        Some("0 passed, 2 failed; 2 of 3 cases are of kind S")
    );
    assert_eq!(status, Some(1));
}

#[test]
fn a_file_without_cases_of_the_kind_fails() {
    let stage = file("kinds lacking", &two_entries());
    for program in [&[][..], &[SECOND, "--batch"]] {
        let (printed, status) = staged_kind("T", &stage, program);
        let expected = format!(
            "{}: no cases\n0 passed, 1 failed; 0 of 2 cases are of kind T\n",
            stage.display()
        );
        assert_eq!((printed, status), (expected, Some(1)));
    }
}

// Checking another program.

#[test]
fn a_program_that_answers_rightly_passes() {
    let printed = staged(&file("stage right", &two_entries()), &[SECOND, "--batch"]);
    assert_eq!(printed, ("2 passed, 0 failed\n".to_string(), Some(0)));
    let answers = [string(SHEET), string(REFUSED)].concat();
    let printed = staged_with("right", &two_entries(), &answers);
    assert_eq!(printed, ("2 passed, 0 failed\n".to_string(), Some(0)));
}

#[test]
fn more_than_a_pipe_holds_goes_both_ways() {
    // 9,000 ticks a case, with a record of 2 bytes each.
    let trace = [1, 1, 1, 0].repeat(4_500);
    let text = b"input a; p -> a || !a; monitor p;";
    let large = case(b'S', &[b"2", text, &trace]);
    let answer = second::sheet(text, &trace);
    let end = b"\nclean 9000\nmet 0 0 4500\nmet 0 1 4500\ntotal 9000\n";
    assert!(answer.ends_with(end));
    let entries = entry("large", large, &answer).repeat(100);
    let printed = staged(&file("stage large", &entries), &[SECOND, "--batch"]);
    assert_eq!(printed, ("100 passed, 0 failed\n".to_string(), Some(0)));
}

#[test]
fn a_wrong_answer_is_named() {
    let answers = [string(SHEET), string(b"refused 3 1\n")].concat();
    let (printed, status) = staged_with("wrong answer", &two_entries(), &answers);
    let expected = "refused: expected \"refused 3 0\\n\", came \"refused 3 1\\n\"\n\
                    1 passed, 1 failed\n";
    assert_eq!((printed.as_str(), status), (expected, Some(1)));
}

#[test]
fn a_missing_answer_is_named() {
    let (printed, status) = staged_with("too few", &two_entries(), &string(SHEET));
    let expected = "refused: no answer\n1 passed, 1 failed\n";
    assert_eq!((printed.as_str(), status), (expected, Some(1)));
}

#[test]
fn an_answer_too_many_fails() {
    let answers = [string(SHEET), string(REFUSED), string(b"")].concat();
    let (printed, status) = staged_with("too many", &two_entries(), &answers);
    let expected = "cat: more answers than cases\n2 passed, 1 failed\n";
    assert_eq!((printed.as_str(), status), (expected, Some(1)));
}

#[test]
fn an_answer_cut_short_fails() {
    let answers = [string(SHEET), string(REFUSED)].concat();
    let cut = &answers[..answers.len() - 1];
    let (printed, status) = staged_with("cut answer", &two_entries(), cut);
    let expected = "refused: no answer\ncat: answer 1: cut short\n1 passed, 2 failed\n";
    assert_eq!((printed.as_str(), status), (expected, Some(1)));
}

#[test]
fn a_program_that_ends_badly_fails() {
    let unknown = entry("odd", case(b'?', &[]), b"");
    let stage = file("stage odd", &[two_entries(), unknown].concat());
    let (printed, status) = staged(&stage, &[SECOND, "--batch"]);
    let expected = format!("odd: no answer\n{SECOND}: exit status: 1\n2 passed, 2 failed\n");
    assert_eq!((printed, status), (expected, Some(1)));
}

#[test]
fn a_program_that_cannot_be_run_fails() {
    let (printed, status) = staged(&file("stage alone", &two_entries()), &["./no such program"]);
    assert_eq!(printed.lines().last(), Some("0 passed, 1 failed"));
    assert_eq!(status, Some(1));
}

#[test]
fn arguments_missing_or_too_many_are_not_understood() {
    for arguments in [
        &["stage"][..],
        &["stage", "--kind"],
        &["stage", "--kind", "S"],
        &["stage", "--kind", "", "file"],
        &["stage", "--kind", "ST", "file"],
        &["--batch", "more"],
    ] {
        let output = Command::new(SECOND).args(arguments).output().unwrap();
        assert_eq!((output.status.code(), output.stdout.len()), (Some(2), 0));
        assert!(!output.stderr.is_empty());
    }
}

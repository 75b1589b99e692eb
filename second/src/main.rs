//! The program `second`: prints sheets, answers cases and checks files of them.

use std::ffi::OsString;
use std::fmt::Display;
use std::io::{BufWriter, Write};
use std::process::ExitCode;

use second::batch;
use second::cases::{self, Difference};
use second::stage::{self, Entry};

const USAGE: &str = "usage: second sheet RULES TRACE
       second cases FILE...
       second stage [--kind K] FILE [PROGRAM ARGUMENT...]
       second --batch";

/// How many bytes of a sheet are shown where it differs.
const SHOWN: usize = 120;

fn main() -> ExitCode {
    let arguments: Vec<OsString> = std::env::args_os().skip(1).collect();
    match arguments.as_slice() {
        [command, rules, trace] if command == "sheet" => print_sheet(rules, trace),
        [command, files @ ..] if command == "cases" && !files.is_empty() => check_files(files),
        [command, arguments @ ..] if command == "stage" => stage_command(arguments),
        [command] if command == "--batch" => answer_cases(),
        _ => misunderstood(),
    }
}

fn misunderstood() -> ExitCode {
    eprintln!("{USAGE}");
    ExitCode::from(2)
}

/// Prints the sheet of two files. One that cannot be read counts as empty.
fn print_sheet(rules: &OsString, trace: &OsString) -> ExitCode {
    let text = std::fs::read(rules).unwrap_or_default();
    let trace = std::fs::read(trace).unwrap_or_default();
    match std::io::stdout().write_all(&second::sheet(&text, &trace)) {
        Ok(()) => ExitCode::SUCCESS,
        Err(_) => ExitCode::FAILURE,
    }
}

/// Answers the cases of standard input on standard output.
fn answer_cases() -> ExitCode {
    let mut cases = std::io::stdin().lock();
    let mut answers = BufWriter::new(std::io::stdout().lock());
    match batch::answer_all(&mut cases, &mut answers) {
        Ok(()) => ExitCode::SUCCESS,
        Err(error) => {
            eprintln!("second: {error}");
            ExitCode::FAILURE
        }
    }
}

/// How many cases passed and failed.
#[derive(Default)]
struct Tally {
    passed: usize,
    failed: usize,
    /// What is said behind both numbers.
    remark: String,
}

impl Tally {
    /// Counts a failure, and prints what is known of it.
    fn fail(&mut self, line: impl Display) {
        println!("{line}");
        self.failed += 1;
    }

    /// Counts a case that was compared.
    fn count(&mut self, difference: Option<Difference>) {
        match difference {
            None => self.passed += 1,
            Some(difference) => self.fail(described(&difference)),
        }
    }

    /// Prints both numbers; they decide how the program ends.
    fn close(self) -> ExitCode {
        let Tally {
            passed,
            failed,
            remark,
        } = self;
        println!("{passed} passed, {failed} failed{remark}");
        if failed == 0 {
            ExitCode::SUCCESS
        } else {
            ExitCode::FAILURE
        }
    }
}

/// Checks all cases of all files. A file that cannot be read fails as one case.
fn check_files(files: &[OsString]) -> ExitCode {
    let mut tally = Tally::default();
    for file in files {
        let name = file.to_string_lossy();
        match std::fs::read(file) {
            Ok(bytes) => check_cases(&name, &bytes, &mut tally),
            Err(error) => tally.fail(format_args!("{name}: {error}")),
        }
    }
    tally.close()
}

fn check_cases(name: &str, bytes: &[u8], tally: &mut Tally) {
    let Some(cases) = cases::read(bytes) else {
        tally.fail(format_args!("{name}: no row of cases"));
        return;
    };
    for case in cases {
        tally.count(case.check());
    }
}

/// Checks a stage file, all of it or the cases of one kind.
fn stage_command(arguments: &[OsString]) -> ExitCode {
    match arguments {
        [option, kind, file, program @ ..] if option == "--kind" && kind.len() == 1 => {
            check_stage(Some(kind.as_encoded_bytes()[0]), file, program)
        }
        [file, program @ ..] if file != "--kind" => check_stage(None, file, program),
        _ => misunderstood(),
    }
}

fn check_stage(kind: Option<u8>, file: &OsString, program: &[OsString]) -> ExitCode {
    let mut tally = Tally::default();
    let name = file.to_string_lossy();
    match std::fs::read(file).and_then(|bytes| stage::read(&bytes)) {
        Ok(entries) => match chosen(kind, entries, &mut tally).as_slice() {
            [] => tally.fail(format_args!("{name}: no cases")),
            entries => check_entries(entries, program, &mut tally),
        },
        Err(error) => tally.fail(format_args!("{name}: {error}")),
    }
    tally.close()
}

/// All entries, or those of the kind that is named; the tally then says how
/// many these are.
fn chosen(kind: Option<u8>, entries: Vec<Entry>, tally: &mut Tally) -> Vec<Entry> {
    let Some(kind) = kind else {
        return entries;
    };
    let all = entries.len();
    let chosen = stage::of_kind(kind, entries);
    let (count, kind) = (chosen.len(), kind.escape_ascii());
    tally.remark = format!("; {count} of {all} cases are of kind {kind}");
    chosen
}

/// Checks the answers given here, or those of another program if one is named.
fn check_entries(entries: &[Entry], program: &[OsString], tally: &mut Tally) {
    match program {
        [] => check_own_answers(entries, tally),
        [program, arguments @ ..] => check_program(program, arguments, entries, tally),
    }
}

fn check_own_answers(entries: &[Entry], tally: &mut Tally) {
    for entry in entries {
        match entry.case.answer() {
            Ok(answer) => tally.count(entry.compare(answer)),
            Err(error) => tally.fail(format_args!("{}: {error}", entry.name)),
        }
    }
}

/// Each case without an answer fails, and so does a program that ends badly or
/// says more than it was asked, as one case.
fn check_program(program: &OsString, arguments: &[OsString], entries: &[Entry], tally: &mut Tally) {
    let name = program.to_string_lossy();
    let said = match stage::ask(program, arguments, entries) {
        Ok(said) => said,
        Err(error) => return tally.fail(format_args!("{name}: {error}")),
    };
    let mut answers = said.answers.into_iter();
    for entry in entries {
        match answers.next() {
            Some(answer) => tally.count(entry.compare(answer)),
            None => tally.fail(format_args!("{}: no answer", entry.name)),
        }
    }
    if let Some(fault) = said.fault {
        tally.fail(format_args!("{name}: {fault}"));
    }
}

/// One line about a difference, the sheets shown from the first line on that
/// differs.
fn described(difference: &Difference) -> String {
    let Difference {
        name,
        expected,
        came,
    } = difference;
    let same = expected
        .iter()
        .zip(came)
        .take_while(|(one, other)| one == other)
        .count();
    let begin = expected[..same]
        .iter()
        .rposition(|&b| b == b'\n')
        .map_or(0, |feed| feed + 1);
    format!(
        "{name}: expected {}, came {}",
        shown(expected, begin),
        shown(came, begin)
    )
}

/// The bytes of a sheet from `begin` on, in one line and cut to a sensible
/// length.
fn shown(sheet: &[u8], begin: usize) -> String {
    let part = &sheet[begin..];
    let cut = &part[..part.len().min(SHOWN)];
    let more = if cut.len() < part.len() { ".." } else { "" };
    format!("{:?}{more}", String::from_utf8_lossy(cut))
}

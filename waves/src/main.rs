//! The program: `waves check`, `waves trace`, `waves vcd`, `waves svg` and `waves totals`. The result goes to standard output. A fault goes to standard
//! error with exit status 1 and leaves standard output empty; the wrong arguments are answered with how to use the program and exit status 2.

use std::ffi::OsString;
use std::io::Write;
use std::path::{Path, PathBuf};
use std::process::ExitCode;
use waves::rules::{Limit, Rules, Wire};
use waves::sheet::Sheet;
use waves::{library, rules, sheet, svg, table, totals, vcd};

const USAGE: &str = "usage: waves check RULES                   says whether the rule text is accepted
       waves trace RULES TABLE             writes the trace of a table
       waves vcd RULES TRACE SHEET         writes a waveform for wave viewers
       waves svg RULES TRACE SHEET         draws the last 64 ticks
       waves svg RULES TRACE SHEET FROM TO draws the ticks from one to another
       waves totals RULES TRACE SHEET      tells how often each letter was met";

fn main() -> ExitCode {
    let arguments: Vec<PathBuf> = std::env::args_os().skip(1).map(PathBuf::from).collect();
    let Some(result) = run(&arguments) else {
        say(USAGE);
        return ExitCode::from(2);
    };
    match result.and_then(|bytes| print(&bytes)) {
        Ok(()) => ExitCode::SUCCESS,
        Err(message) => {
            say(&format!("waves: {message}"));
            ExitCode::FAILURE
        }
    }
}

/// What the arguments ask for, or a message; nothing if they are no command.
fn run(arguments: &[PathBuf]) -> Option<Result<Vec<u8>, String>> {
    let (command, rest) = arguments.split_first()?;
    match (command.to_str()?, rest) {
        ("check", [rules]) => Some(check(rules)),
        ("trace", [rules, table]) => Some(trace(rules, table)),
        ("vcd", [rules, trace, sheet]) => Some(vcd(rules, trace, sheet)),
        ("svg", [rules, trace, sheet]) => Some(svg(rules, trace, sheet, None)),
        ("svg", [rules, trace, sheet, from, to]) => Some(svg(rules, trace, sheet, Some([from, to]))),
        ("totals", [rules, trace, sheet]) => Some(totals(rules, trace, sheet)),
        _ => None,
    }
}

/// The counts, the wires, the limits if there are any, and the monitors of an accepted text.
fn check(file: &Path) -> Result<Vec<u8>, String> {
    let text = read(file)?;
    let rules = open(file, &text)?;
    let sheet = library::sheet(&text, &[]);
    let counts = String::from_utf8_lossy(&sheet).lines().next().unwrap_or_default().to_string();
    let wires: Vec<String> = rules.wires.iter().map(Wire::label).collect();
    let limits = if rules.limits.is_empty() { String::new() } else { format!("limits: {}\n", numbered(rules.limits.iter().map(Limit::label))) };
    let monitors = numbered(rules.monitors.iter().cloned());
    Ok(format!("accepted: {counts}\nwires: {}\n{limits}monitors: {monitors}\n", wires.join(", ")).into_bytes())
}

/// Names behind their numbers.
fn numbered(names: impl Iterator<Item = String>) -> String {
    let numbered: Vec<String> = names.enumerate().map(|(number, name)| format!("{number} {name}")).collect();
    numbered.join(", ")
}

fn trace(rules: &Path, table: &Path) -> Result<Vec<u8>, String> {
    let rules = open(rules, &read(rules)?)?;
    let words = table::read(&read(table)?, &rules.wires).map_err(|fault| format!("{}, line {}: {}", table.display(), fault.line, fault.message))?;
    Ok(library::trace(&words))
}

fn vcd(rules: &Path, trace: &Path, sheet: &Path) -> Result<Vec<u8>, String> {
    let (rules, sheet) = judged(rules, trace, sheet)?;
    Ok(vcd::write(&rules, &sheet).into_bytes())
}

fn svg(rules_file: &Path, trace: &Path, sheet: &Path, chosen: Option<[&PathBuf; 2]>) -> Result<Vec<u8>, String> {
    let (rules, sheet) = judged(rules_file, trace, sheet)?;
    let ticks = match chosen {
        Some([from, to]) => svg::chosen_ticks(&from.to_string_lossy(), &to.to_string_lossy(), &sheet)?,
        None => svg::last_ticks(&sheet),
    };
    let name = rules_file.file_name().map(OsString::from).unwrap_or_default();
    Ok(svg::write(&name.to_string_lossy(), &rules, &sheet, ticks).into_bytes())
}

fn totals(rules: &Path, trace: &Path, sheet: &Path) -> Result<Vec<u8>, String> {
    let (rules, sheet) = judged(rules, trace, sheet)?;
    Ok(totals::write(&rules, &sheet)?.into_bytes())
}

/// The rules and the sheet, if the file with the sheet says what the library says.
fn judged(rules_file: &Path, trace: &Path, sheet_file: &Path) -> Result<(Rules, Sheet), String> {
    let text = read(rules_file)?;
    let rules = open(rules_file, &text)?;
    let right = library::sheet(&text, &read(trace)?);
    if let Some(difference) = sheet::difference(&read(sheet_file)?, &right) {
        let (sheet, text, trace) = (sheet_file.display(), rules_file.display(), trace.display());
        return Err(format!("{sheet} is not the sheet of {text} and {trace}: {difference}"));
    }
    let sheet = sheet::read(&right).ok_or_else(|| format!("{} has a form that is not known", sheet_file.display()))?;
    Ok((rules, sheet))
}

fn open(file: &Path, text: &[u8]) -> Result<Rules, String> {
    rules::open(text).map_err(|message| format!("{}: {message}", file.display()))
}

fn read(file: &Path) -> Result<Vec<u8>, String> {
    std::fs::read(file).map_err(|error| format!("{} cannot be read: {error}", file.display()))
}

fn print(bytes: &[u8]) -> Result<(), String> {
    let mut out = std::io::stdout();
    out.write_all(bytes).and_then(|()| out.flush()).map_err(|error| format!("the result cannot be written: {error}"))
}

/// Writes a line to standard error. If that is closed there is nobody left to tell.
fn say(message: &str) {
    let _ = writeln!(std::io::stderr(), "{message}");
}

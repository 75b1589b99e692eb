//! Turns the tables of the cases into wire records and sheets, and checks that
//! these still agree.
//!
//!     tool build FOLDER         writes NAME.bin and NAME.sheet of each NAME.table,
//!                               the sheet without its foot
//!     tool check FOLDER NAME    compares both with the table, and standard input
//!                               (the sheet a program printed) with NAME.sheet
//!
//! A folder holds `rules.txt`, whose inputs say which wire has which bits, and
//! `counts.txt`, the first line of every sheet. A table's first line names its
//! columns: `tick`, then every wire. Each further line is a tick: its number,
//! then a value for each wire, decimal or hexadecimal behind `0x`. Ticks in a row
//! with the same values may be one line: the first of them, `-` and the last. `#`
//! starts a comment. One comment states the verdict: `# expect: clean`,
//! `# expect: bad NUMBER at tick TICK`, the number being that of a monitor or, from
//! 32 on, of a limit and 32, or `# expect: refused` if the text is refused.
//!
//! No rule is run here: a sheet is made from the verdict its table states. What a
//! table does not say are the totals at its foot: `met M L C` for each letter, and
//! `total T`. Of them only their number, their form and their sum are checked here.
//! The sheet of a refused text is its first line alone.

use std::fmt::Write as _;
use std::io::Read as _;
use std::path::Path;
use std::process::ExitCode;

fn main() -> ExitCode {
    let arguments: Vec<String> = std::env::args().skip(1).collect();
    let arguments: Vec<&str> = arguments.iter().map(String::as_str).collect();
    let outcome = match arguments[..] {
        ["build", folder] => build(Path::new(folder)),
        ["check", folder, name] => check(Path::new(folder), name),
        _ => Err("usage: tool build FOLDER, or tool check FOLDER NAME".to_string()),
    };
    match outcome {
        Ok(()) => ExitCode::SUCCESS,
        Err(message) => {
            println!("{message}");
            ExitCode::FAILURE
        }
    }
}

/// Writes the records and the sheet of every table in the folder.
fn build(folder: &Path) -> Result<(), String> {
    let entries = std::fs::read_dir(folder).map_err(|e| format!("{}: {e}", folder.display()))?;
    for entry in entries {
        let path = entry.map_err(|e| e.to_string())?.path();
        if path
            .extension()
            .is_some_and(|extension| extension == "table")
        {
            let case = Case::read(folder, &path)?;
            write(&path.with_extension("bin"), &case.records)?;
            write(&path.with_extension("sheet"), case.sheet.as_bytes())?;
        }
    }
    Ok(())
}

/// Compares the records and the sheet of a table with what it says, and the
/// sheet on standard input with that sheet.
fn check(folder: &Path, name: &str) -> Result<(), String> {
    let mut printed = Vec::new();
    std::io::stdin()
        .read_to_end(&mut printed)
        .map_err(|e| format!("standard input: {e}"))?;
    let path = folder.join(format!("{name}.table"));
    let case = Case::read(folder, &path)?;
    let (bin, sheet) = (path.with_extension("bin"), path.with_extension("sheet"));
    let not_said = |file: &Path| format!("{}: not what the table says", file.display());
    if read(&bin)? != case.records {
        return Err(not_said(&bin));
    }
    let stored = read_text(&sheet)?;
    let foot = stored.strip_prefix(&case.sheet).ok_or(not_said(&sheet))?;
    match case.letters {
        Some(letters) if !is_foot(foot, letters) => {
            return Err(format!("{}: no totals at its foot", sheet.display()));
        }
        None if !foot.is_empty() => {
            return Err(format!("{}: more than a refusal", sheet.display()));
        }
        _ => {}
    }
    match first_difference(&stored, &String::from_utf8_lossy(&printed)) {
        None => Ok(()),
        Some((right, came)) => Err(format!(
            "{}: the sheet has {right:?}, the program printed {came:?}",
            folder.join(name).display()
        )),
    }
}

/// The first line that differs, of both texts; a missing line is empty.
fn first_difference<'a>(one: &'a str, other: &'a str) -> Option<(&'a str, &'a str)> {
    let mut mine = one.split_inclusive('\n');
    let mut yours = other.split_inclusive('\n');
    loop {
        match (mine.next(), yours.next()) {
            (None, None) => return None,
            (a, b) if a != b => return Some((a.unwrap_or(""), b.unwrap_or(""))),
            _ => {}
        }
    }
}

/// Whether these lines are totals: one for each letter, and last their sum.
fn is_foot(lines: &str, letters: usize) -> bool {
    let lines: Vec<&str> = lines.split_inclusive('\n').collect();
    let Some((last, met)) = lines.split_last() else {
        return false;
    };
    let counts: Option<Vec<u64>> = met.iter().map(|line| count_of(line)).collect();
    counts.is_some_and(|counts| {
        let sum: u64 = counts.iter().sum();
        counts.len() == letters && *last == format!("total {sum}\n")
    })
}

/// The count of a line `met M L C`.
fn count_of(line: &str) -> Option<u64> {
    match line.trim_end().split(' ').collect::<Vec<_>>()[..] {
        ["met", _, _, count] => count.parse().ok(),
        _ => None,
    }
}

/// What a table stands for.
struct Case {
    records: Vec<u8>,
    /// How many letters its rules have, unless they are refused.
    letters: Option<usize>,
    /// The sheet without its foot.
    sheet: String,
}

impl Case {
    fn read(folder: &Path, path: &Path) -> Result<Case, String> {
        let rules = folder.join("rules.txt");
        let wires = wires(&read_text(&rules)?).map_err(|e| format!("{}: {e}", rules.display()))?;
        let counts = read_text(&folder.join("counts.txt"))?;
        let table = Table::parse(&read_text(path)?, &wires)
            .map_err(|e| format!("{}: {e}", path.display()))?;
        Ok(Case {
            records: records(&table.words),
            letters: letters(&counts, &table.verdict)?,
            sheet: table.sheet(counts.trim_end()),
        })
    }
}

/// The letters that the first line of a sheet counts; none if it is a refusal,
/// which the verdict must be too.
fn letters(counts: &str, verdict: &Verdict) -> Result<Option<usize>, String> {
    let fields: Vec<&str> = counts.split_whitespace().collect();
    match (&fields[..], verdict) {
        (["refused", _, ..], Verdict::Refused) => Ok(None),
        (["rows", _, "letters", letters], Verdict::Clean | Verdict::Bad { .. }) => {
            Ok(Some(number(letters)? as usize))
        }
        _ => Err(format!("`{}` is not what is expected", counts.trim_end())),
    }
}

/// An input of the rule text and its place in a word.
struct Wire {
    name: String,
    lowest: u32,
    width: u32,
}

/// The inputs of a rule text; they take the bits from bit 0 in order.
fn wires(rules: &str) -> Result<Vec<Wire>, String> {
    let mut wires = Vec::new();
    let mut lowest = 0;
    for statement in rules.split(';') {
        let mut words = statement.split_whitespace();
        if words.next() != Some("input") {
            continue;
        }
        let declared: String = words.collect();
        let (name, width) = match declared.split_once('[') {
            None => (declared.as_str(), 1),
            Some((name, range)) => {
                let high: u32 = range
                    .strip_suffix(":0]")
                    .and_then(|high| high.parse().ok())
                    .filter(|&high| high < 64)
                    .ok_or(format!("no range of wires in `input {declared}`"))?;
                (name, high + 1)
            }
        };
        let name = name.to_string();
        wires.push(Wire {
            name,
            lowest,
            width,
        });
        lowest += width;
    }
    if lowest > 64 {
        return Err(format!("{lowest} wires, a word has 64"));
    }
    Ok(wires)
}

enum Verdict {
    Clean,
    /// The number is that of a monitor or, from 32 on, of a limit.
    Bad {
        number: usize,
        tick: usize,
    },
    /// The text is refused.
    Refused,
}

struct Table {
    words: Vec<u64>,
    verdict: Verdict,
}

impl Table {
    fn parse(text: &str, wires: &[Wire]) -> Result<Table, String> {
        let mut lines = text.lines();
        let columns = columns(lines.next().unwrap_or(""), wires)?;
        let mut words = Vec::new();
        let mut verdict = None;
        for (index, line) in lines.enumerate() {
            let at_line = |e: String| format!("line {}: {e}", index + 2);
            let (values, comment) = line.split_once('#').unwrap_or((line, ""));
            if let Some(stated) = comment.trim().strip_prefix("expect:") {
                let stated = parse_verdict(stated).map_err(at_line)?;
                if verdict.replace(stated).is_some() {
                    return Err(at_line("a second verdict".to_string()));
                }
            }
            if !values.trim().is_empty() {
                let (word, last) = parse_line(values, words.len(), &columns).map_err(at_line)?;
                words.resize(last + 1, word);
            }
        }
        let verdict = verdict.ok_or("no `# expect:` line")?;
        match verdict {
            Verdict::Bad { tick, .. } if tick >= words.len() => Err(format!(
                "bad at tick {tick}, but there are {} ticks",
                words.len()
            )),
            _ => Ok(Table { words, verdict }),
        }
    }

    /// The sheet without its foot.
    fn sheet(&self, counts: &str) -> String {
        let mut sheet = format!("{counts}\n");
        if matches!(self.verdict, Verdict::Refused) {
            return sheet;
        }
        for (tick, word) in self.words.iter().enumerate() {
            let answer = match self.verdict {
                Verdict::Bad { number, tick: bad } if bad == tick => format!("bad {number}"),
                _ => "ok".to_string(),
            };
            writeln!(sheet, "{tick} {word:016x} {answer}").expect("a string takes every write");
            if answer != "ok" {
                return sheet;
            }
        }
        sheet + &format!("clean {}\n", self.words.len())
    }
}

/// The wires in the order of the columns: each wire once.
fn columns<'a>(header: &str, wires: &'a [Wire]) -> Result<Vec<&'a Wire>, String> {
    let mut names = header.split_whitespace();
    if names.next() != Some("tick") {
        return Err("the first line does not begin with `tick`".to_string());
    }
    let mut columns: Vec<&Wire> = Vec::new();
    for name in names {
        let wire = wires.iter().find(|wire| wire.name == name);
        let wire = wire.ok_or(format!("{name} is no wire of the rules"))?;
        if columns.iter().any(|column| column.name == name) {
            return Err(format!("two columns for {name}"));
        }
        columns.push(wire);
    }
    match wires
        .iter()
        .find(|wire| !columns.iter().any(|column| column.name == wire.name))
    {
        Some(wire) => Err(format!("no column for {}", wire.name)),
        None => Ok(columns),
    }
}

/// The word of a line that begins with a tick, and the last tick that has it.
fn parse_line(line: &str, tick: usize, columns: &[&Wire]) -> Result<(u64, usize), String> {
    let values: Vec<&str> = line.split_whitespace().collect();
    if values.len() != columns.len() + 1 {
        return Err(format!(
            "{} values for {} columns",
            values.len(),
            columns.len() + 1
        ));
    }
    let (first, last) = values[0].split_once('-').unwrap_or((values[0], values[0]));
    let (first, last) = (number(first)? as usize, number(last)? as usize);
    if first != tick || last < first {
        return Err(format!("tick {} where {tick} is due", values[0]));
    }
    let mut word = 0;
    for (wire, value) in columns.iter().zip(&values[1..]) {
        let bits = number(value)?;
        if wire.width < 64 && bits >> wire.width != 0 {
            return Err(format!("{value} is too large for {}", wire.name));
        }
        word |= bits << wire.lowest;
    }
    Ok((word, last))
}

fn number(text: &str) -> Result<u64, String> {
    match text.strip_prefix("0x") {
        Some(digits) => u64::from_str_radix(digits, 16),
        None => text.parse(),
    }
    .map_err(|_| format!("`{text}` is no number"))
}

fn parse_verdict(text: &str) -> Result<Verdict, String> {
    let words: Vec<&str> = text.split_whitespace().collect();
    match words[..] {
        ["clean"] => Ok(Verdict::Clean),
        ["refused"] => Ok(Verdict::Refused),
        ["bad", named, "at", "tick", tick] => Ok(Verdict::Bad {
            number: number(named)? as usize,
            tick: number(tick)? as usize,
        }),
        _ => Err(format!("`{}` is no verdict", text.trim())),
    }
}

/// The wire records of the words: a map byte, then the bytes that changed.
fn records(words: &[u64]) -> Vec<u8> {
    let mut records = Vec::new();
    let mut before = [0; 8];
    for word in words {
        let bytes = word.to_le_bytes();
        let changed: Vec<usize> = (0..8).filter(|&i| bytes[i] != before[i]).collect();
        records.push(changed.iter().map(|i| 1 << i).sum());
        records.extend(changed.iter().map(|&i| bytes[i]));
        before = bytes;
    }
    records
}

fn read(path: &Path) -> Result<Vec<u8>, String> {
    std::fs::read(path).map_err(|e| format!("{}: {e}", path.display()))
}

fn read_text(path: &Path) -> Result<String, String> {
    String::from_utf8(read(path)?).map_err(|e| format!("{}: {e}", path.display()))
}

fn write(path: &Path, bytes: &[u8]) -> Result<(), String> {
    std::fs::write(path, bytes).map_err(|e| format!("{}: {e}", path.display()))
}

//! How often each letter was met, as a table for people, and below it the letters that never were: the rules that the trace has not tried.

use crate::letters::{self, Letter, Part};
use crate::rules::Rules;
use crate::sheet::{End, Sheet};

/// The columns of the table. Each is as wide as its widest cell, and numbers stand at the right.
const HEADING: [&str; COLUMNS] = ["monitor", "letter", "met", "line", "column", "text", "production"];
const AT_RIGHT: [bool; COLUMNS] = [false, true, true, true, true, false, false];
const COLUMNS: usize = 7;

type Cells = [String; COLUMNS];

/// A letter with its monitor's number and name, its own number, and how often it was met.
struct Row<'a> {
    monitor: usize,
    name: &'a str,
    number: usize,
    met: u32,
    letter: Letter,
}

/// The verdict, the table and the letters never met; or why there are none.
pub fn write(rules: &Rules, sheet: &Sheet) -> Result<String, String> {
    let verdict = sheet.verdict(rules);
    if matches!(sheet.end, End::Refused(_)) {
        return Err(format!("there are no totals, as the sheet ends with a refusal: {verdict}"));
    }
    let rows = rows(rules, sheet).ok_or("the letters of the rule text could not be read")?;
    Ok(format!("{verdict}\n\n{}\n{}", table(&rows), never_met(&rows)))
}

/// A row for each letter in the order of the sheet's foot; nothing if the text was read into other letters than the foot counts.
fn rows<'a>(rules: &'a Rules, sheet: &Sheet) -> Option<Vec<Row<'a>>> {
    let letters = letters::of(rules)?;
    if !letters.iter().map(Vec::len).eq(sheet.met.iter().map(Vec::len)) {
        return None;
    }
    let mut rows = Vec::new();
    for (monitor, (letters, counts)) in letters.into_iter().zip(&sheet.met).enumerate() {
        let name = rules.monitors.get(monitor)?;
        for (number, (letter, &met)) in letters.into_iter().zip(counts).enumerate() {
            rows.push(Row { monitor, name, number, met, letter });
        }
    }
    Some(rows)
}

impl Row<'_> {
    fn cells(&self) -> Cells {
        let Part { text, line, column } = &self.letter.part;
        let monitor = format!("{} ({})", self.monitor, self.name);
        [monitor, self.number.to_string(), self.met.to_string(), line.to_string(), column.to_string(), text.clone(), self.productions()]
    }

    /// The monitor's production, those opened on the way, and last the one that the letter stands in.
    fn productions(&self) -> String {
        let names: Vec<&str> = std::iter::once(self.name).chain(self.letter.through.iter().map(|part| part.text.as_str())).collect();
        names.join(" > ")
    }

    /// The letter in a sentence, with all places.
    fn described(&self) -> String {
        let Row { monitor, name, number, letter, .. } = self;
        let uses: Vec<String> = letter.through.iter().map(|part| format!("{} {}", part.text, place(part))).collect();
        let through = if uses.is_empty() { String::new() } else { format!(", through {}", uses.join(", then ")) };
        format!("letter {number} of monitor {monitor} ({name}): \"{}\" {}{through}", letter.part.text, place(&letter.part))
    }
}

fn place(part: &Part) -> String {
    format!("at line {}, column {}", part.line, part.column)
}

/// The heading, a line for each row, and the sum.
fn table(rows: &[Row]) -> String {
    let mut lines = vec![HEADING.map(String::from)];
    lines.extend(rows.iter().map(Row::cells));
    lines.push(total(rows));
    let mut widths = [0; COLUMNS];
    for line in &lines {
        for (width, cell) in widths.iter_mut().zip(line) {
            *width = cell.len().max(*width);
        }
    }
    lines.iter().map(|line| aligned(line, &widths)).collect()
}

fn total(rows: &[Row]) -> Cells {
    let sum: u64 = rows.iter().map(|row| u64::from(row.met)).sum();
    ["total", "", &sum.to_string(), "", "", "", ""].map(String::from)
}

fn aligned(line: &Cells, widths: &[usize; COLUMNS]) -> String {
    let mut out = String::new();
    for (column, (cell, &width)) in line.iter().zip(widths).enumerate() {
        let padded = if AT_RIGHT[column] { format!("{cell:>width$}  ") } else { format!("{cell:<width$}  ") };
        out.push_str(&padded);
    }
    format!("{}\n", out.trim_end())
}

fn never_met(rows: &[Row]) -> String {
    let lines: String = rows.iter().filter(|row| row.met == 0).map(|row| format!("never met: {}\n", row.described())).collect();
    if lines.is_empty() {
        return String::from("every letter was met\n");
    }
    lines
}

#[cfg(test)]
mod tests {
    use super::*;
    use crate::{library, rules, sheet};

    /// What is said of a text and some words, at whose end a record may be cut.
    fn said(text: &str, words: &[u64], cut: usize) -> Result<String, String> {
        let mut trace = library::trace(words);
        trace.truncate(trace.len() - cut);
        write(&rules::open(text.as_bytes()).unwrap(), &sheet::read(&library::sheet(text.as_bytes(), &trace)).unwrap())
    }

    fn lines(text: &str, words: &[u64]) -> Vec<String> {
        said(text, words, 0).unwrap().lines().map(String::from).collect()
    }

    /// The bad tick meets letter 1 of `q`, and letter 0 of the first `p`, but adds nothing.
    #[test]
    fn monitors_are_told_apart_also_with_one_production() {
        let text = "input a; input b;\np -> a, b;\nq -> a || !a;\nmonitor p, q, p;\n";
        let table = "\
bad at tick 3: monitor 0 (p)

monitor  letter  met  line  column  text  production
0 (p)         0    2     2       6  a     p
0 (p)         1    1     2       9  b     p
1 (q)         0    2     3       6  a     q
1 (q)         1    1     3      11  !a    q
2 (p)         0    2     2       6  a     p
2 (p)         1    1     2       9  b     p
total              9

every letter was met
";
        assert_eq!(said(text, &[1, 2, 1, 0], 0).unwrap(), table);
    }

    #[test]
    fn letters_never_met_are_told_with_all_places() {
        let text = "input a; input D[3:0];\ninternal s = 0;\ndefine five = D == 5;\none -> a & five\n  {s <- 1;};\n\
                    two -> one, D == 3 & s == 1;\np -> two || !a, two;\nmonitor p;\n";
        let table = "\
clean 2 ticks

monitor  letter  met  line  column  text                production
0 (p)         0    1     4       8  a & five {s <- 1;}  p > two > one
0 (p)         1    1     6      13  D == 3 & s == 1     p > two
0 (p)         2    0     7      13  !a                  p
0 (p)         3    0     4       8  a & five {s <- 1;}  p > two > one
0 (p)         4    0     6      13  D == 3 & s == 1     p > two
total              2

never met: letter 2 of monitor 0 (p): \"!a\" at line 7, column 13
never met: letter 3 of monitor 0 (p): \"a & five {s <- 1;}\" at line 4, column 8, through two at line 7, column 17, then one at line 6, column 8
never met: letter 4 of monitor 0 (p): \"D == 3 & s == 1\" at line 6, column 13, through two at line 7, column 17
";
        assert_eq!(said(text, &[1 + 2 * 5, 2 * 3], 0).unwrap(), table);
    }

    /// The third tick would meet both letters of wire a, but is beyond the second limit.
    #[test]
    fn a_limit_is_named_with_its_numbers() {
        let text = "input a;\nlog -> a;\nlimit log to 2 in 8;\nlimit log to 1 in 3;\np -> log || !a;\nmonitor p, p;\n";
        let table = "\
bad at tick 2: limit 1 (log to 1 in 3)

monitor  letter  met  line  column  text  production
0 (p)         0    1     2       8  a     p > log
0 (p)         1    1     5      13  !a    p
1 (p)         0    1     2       8  a     p > log
1 (p)         1    1     5      13  !a    p
total              4

every letter was met
";
        assert_eq!(said(text, &[1, 0, 1], 0).unwrap(), table);
    }

    #[test]
    fn columns_are_as_wide_as_they_must_be() {
        let text = "input a; p -> a || !a; a_longer_name -> a & a & a & a || !a; monitor p, a_longer_name;";
        let words: Vec<u64> = (0..3000).map(|tick| u64::from(tick % 3 == 0)).collect();
        let lines = lines(text, &words);
        assert_eq!(lines[2], "monitor            letter   met  line  column  text           production");
        assert_eq!(lines[3], "0 (p)                   0  1000     1      15  a              p");
        assert_eq!(lines[6], "1 (a_longer_name)       1  2000     1      58  !a             a_longer_name");
        assert_eq!(lines[7], "total                      6000");
        assert!(lines.iter().all(|line| line.trim_end() == line));
    }

    #[test]
    fn without_ticks_no_letter_is_met() {
        let none = lines("input a; p -> a || !a; monitor p;", &[]);
        assert_eq!((none[0].as_str(), none[5].as_str()), ("clean 0 ticks", "total              0"));
        let letters = ["0 of monitor 0 (p): \"a\" at line 1, column 15", "1 of monitor 0 (p): \"!a\" at line 1, column 20"];
        assert_eq!(none[7..], letters.map(|letter| format!("never met: letter {letter}")));
        let bad = lines("input a; p -> a; monitor p;", &[0]);
        assert_eq!((bad[0].as_str(), bad[4].as_str()), ("bad at tick 0: monitor 0 (p)", "total              0"));
    }

    #[test]
    fn a_refusal_has_no_totals() {
        let text = "input a; p -> a || !a; monitor p;";
        let refusal = |verdict: &str| Err(format!("there are no totals, as the sheet ends with a refusal: {verdict}"));
        assert_eq!(said(text, &[1, 0], 1), refusal("refused 13 (torn) at tick 1"));
        assert_eq!(said(text, &[2], 0), refusal("refused 15 (stray) at tick 0"));
    }

    /// The library's sheet is right; what is told of it must not be put together from letters that are others.
    #[test]
    fn other_letters_than_the_sheet_counts_are_a_fault() {
        let rules = rules::open(b"input a; p -> a || !a; monitor p, p;").unwrap();
        for met in [vec![], vec![vec![1, 0]], vec![vec![1, 0], vec![1]], vec![vec![1], vec![1, 0, 0]], vec![vec![0, 0], vec![0, 0], vec![0]]] {
            let sheet = Sheet { words: vec![1], end: End::Clean, met };
            assert_eq!(write(&rules, &sheet), Err(String::from("the letters of the rule text could not be read")));
        }
    }
}

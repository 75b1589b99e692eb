//! A printed sheet back into words, the verdict and the totals at its foot, and the first line in which a file is another sheet.

use crate::refusals;
use crate::rules::Rules;
use std::str::Lines;

/// How the ticks of a sheet end.
#[derive(Debug, PartialEq)]
pub enum End {
    Clean,
    /// The last word's tick is bad by this number: it breaks a monitor or, from 32 on, is beyond a limit.
    Bad(usize),
    /// The tick behind the last word is refused with this number. The sheet has no word for it.
    Refused(usize),
}

/// The words of the ticks from tick 0 on, the end, and for each monitor how often each of its letters was met: none of them after a refusal.
#[derive(Debug, PartialEq)]
pub struct Sheet {
    pub words: Vec<u64>,
    pub end: End,
    pub met: Vec<Vec<u32>>,
}

impl Sheet {
    /// How many ticks there are, the refused one included.
    pub fn ticks(&self) -> usize {
        self.words.len() + usize::from(matches!(self.end, End::Refused(_)))
    }

    /// The verdict in words.
    pub fn verdict(&self, rules: &Rules) -> String {
        let last = self.ticks().saturating_sub(1);
        match self.end {
            End::Clean if self.words.len() == 1 => String::from("clean 1 tick"),
            End::Clean => format!("clean {} ticks", self.words.len()),
            End::Bad(number) => format!("bad at tick {last}: {}", rules.named(number)),
            End::Refused(number) => format!("refused {number} ({}) at tick {last}", refusals::word(number)),
        }
    }
}

/// Reads the sheet of an accepted text. Nothing is left out: a line of another form, or out of order, makes it no sheet.
pub fn read(sheet: &[u8]) -> Option<Sheet> {
    let mut lines = std::str::from_utf8(sheet).ok()?.lines();
    let letters = letters(lines.next()?)?;
    let (words, end) = ticks(&mut lines)?;
    let met = if matches!(end, End::Refused(_)) { Vec::new() } else { foot(&mut lines, letters)? };
    lines.next().is_none().then_some(Sheet { words, end, met })
}

/// How many letters the first line counts.
fn letters(line: &str) -> Option<usize> {
    let fields: Vec<&str> = line.split(' ').collect();
    let ["rows", rows, "letters", letters] = fields[..] else {
        return None;
    };
    rows.parse::<usize>().ok()?;
    letters.parse().ok()
}

/// The words and the end: the lines up to `clean`, a bad tick or a refusal.
fn ticks(lines: &mut Lines) -> Option<(Vec<u64>, End)> {
    let mut words = Vec::new();
    for line in lines {
        let fields: Vec<&str> = line.split(' ').collect();
        let end = match fields[..] {
            ["clean", ticks] if ticks.parse() == Ok(words.len()) => Some(End::Clean),
            ["refused", number, tick] if tick.parse() == Ok(words.len()) => Some(End::Refused(number.parse().ok()?)),
            [tick, word, ref answer @ ..] if tick.parse() == Ok(words.len()) => {
                words.push(u64::from_str_radix(word, 16).ok()?);
                match *answer {
                    ["ok"] => None,
                    ["bad", number] => Some(End::Bad(number.parse().ok()?)),
                    _ => return None,
                }
            }
            _ => return None,
        };
        if let Some(end) = end {
            return Some((words, end));
        }
    }
    None
}

/// The foot: a line for each letter, monitor by monitor and letter by letter, and then their sum.
fn foot(lines: &mut Lines, letters: usize) -> Option<Vec<Vec<u32>>> {
    let mut met: Vec<Vec<u32>> = Vec::new();
    for line in lines.by_ref().take(letters) {
        let fields: Vec<&str> = line.split(' ').collect();
        let ["met", monitor, letter, count] = fields[..] else {
            return None;
        };
        if letter == "0" {
            met.push(Vec::new());
        }
        let here = met.len().checked_sub(1)?;
        let counts = &mut met[here];
        if monitor.parse() != Ok(here) || letter.parse() != Ok(counts.len()) {
            return None;
        }
        counts.push(count.parse().ok()?);
    }
    let sum: u64 = met.iter().flatten().map(|&count| u64::from(count)).sum();
    (lines.next()?.strip_prefix("total ")?.parse() == Ok(sum)).then_some(met)
}

/// The first line in which a file is not the right sheet, in words; nothing if they are the same bytes.
pub fn difference(file: &[u8], right: &[u8]) -> Option<String> {
    let mut ours = file.split_inclusive(|&b| b == b'\n');
    let mut theirs = right.split_inclusive(|&b| b == b'\n');
    for number in 1.. {
        let (said, due) = (ours.next(), theirs.next());
        if said != due {
            return Some(format!("line {number} {}, but it should {}", shown(said, "says", "is not there"), shown(due, "say", "not be there")));
        }
        said?;
    }
    None
}

/// A line, without its line feed and not at too great a length.
fn shown(line: Option<&[u8]>, says: &str, missing: &str) -> String {
    let Some(line) = line else {
        return String::from(missing);
    };
    let (line, feed) = match line.strip_suffix(b"\n") {
        Some(line) => (line, ""),
        None => (line, " without a line feed"),
    };
    let text = String::from_utf8_lossy(line);
    let more = if text.chars().count() > 80 { " and more" } else { "" };
    let start: String = text.chars().take(80).collect();
    format!("{says} {start:?}{more}{feed}")
}

#[cfg(test)]
mod tests {
    use super::*;

    const TICKS: &str = "rows 9 letters 5\n0 0000000000000001 ok\n1 00000000000000ff bad 3\n";
    const FOOT: &str = "met 0 0 1\nmet 1 0 0\nmet 2 0 1\nmet 3 0 1\nmet 3 1 0\ntotal 3\n";

    fn bad() -> String {
        format!("{TICKS}{FOOT}")
    }

    #[test]
    fn sheets_are_read() {
        let met = vec![vec![1], vec![0], vec![1], vec![1, 0]];
        assert_eq!(read(bad().as_bytes()), Some(Sheet { words: vec![1, 255], end: End::Bad(3), met }));
        let clean = read(b"rows 3 letters 2\nclean 0\nmet 0 0 0\nmet 0 1 0\ntotal 0\n");
        assert_eq!(clean, Some(Sheet { words: vec![], end: End::Clean, met: vec![vec![0, 0]] }));
        let torn = read(b"rows 1 letters 1\n0 0000000000000002 ok\nrefused 13 1\n").unwrap();
        assert_eq!(torn, Sheet { words: vec![2], end: End::Refused(13), met: vec![] });
        assert_eq!((torn.ticks(), torn.verdict(&Rules::default())), (2, String::from("refused 13 (torn) at tick 1")));
    }

    #[test]
    fn other_bytes_are_no_sheet() {
        for text in ["", "rows 1 letters 1\n", "refused 4 2\n", "rows 1 letters 1\nclean 1\n", "rows 1 letters 1\n1 0 ok\nclean 1\n"] {
            assert_eq!(read(text.as_bytes()), None, "{text}");
            assert_eq!(read(format!("{text}met 0 0 0\ntotal 0\n").as_bytes()), None, "{text} with a foot");
        }
        for first in ["rows 9", "rows 9 letters", "rows 9 letters x", "rows x letters 5", "rows 9 letters 5 6", "rows 9 words 5"] {
            assert_eq!(read(bad().replace("rows 9 letters 5", first).as_bytes()), None, "{first}");
        }
        assert_eq!(read(format!("{TICKS}clean 2\n{FOOT}").as_bytes()), None);
        assert_eq!(read(b"\xff"), None);
    }

    #[test]
    fn other_feet_are_no_foot() {
        let other = |from: &str, to: &str| assert_eq!(read(bad().replacen(from, to, 1).as_bytes()), None, "{to:?} for {from:?}");
        // a sum that is another, or not there
        other("total 3", "total 4");
        other("met 0 0 1", "met 0 0 0");
        other("total 3\n", "");
        other("total 3", "total 3 0");
        // a line missing: within, at the end, all of them
        other("met 1 0 0\n", "");
        other("met 3 1 0\n", "");
        other(FOOT, "");
        other(FOOT, "total 0\n");
        // a line too many: within, at the end, behind the sum
        other("met 1 0 0\n", "met 1 0 0\nmet 1 1 0\n");
        other("total 3\n", "met 3 2 0\ntotal 3\n");
        other("total 3\n", "total 3\nmet 3 2 0\n");
        other("total 3\n", "total 3\ntotal 3\n");
        // a letter out of order, of another monitor, twice, or with other fields
        other("met 1 0 0\nmet 2 0 1", "met 2 0 1\nmet 1 0 0");
        other("met 0 0 1", "met 0 1 1");
        other("met 3 1 0", "met 5 0 0");
        other("met 3 1 0", "met 3 0 0");
        other("met 3 1 0", "met 3 2 0");
        other("met 3 1 0", "met 3 1");
        other("met 3 1 0", "met 3 1 0 0");
        other("met 3 1 0", "met 3 1 x");
        other("met 3 1 0", "met 18446744073709551615 1 0");
        other("letters 5", "letters 6");
        other("letters 5", "letters 18446744073709551615");
        // a refusal has no foot
        assert_eq!(read(b"rows 1 letters 1\nrefused 13 0\nmet 0 0 0\ntotal 0\n"), None);
        assert_eq!(read(b"rows 1 letters 1\nrefused 13 0\ntotal 0\n"), None);
    }

    #[test]
    fn the_first_difference_is_named() {
        let bad = bad();
        let differs = |file: &str| difference(file.as_bytes(), bad.as_bytes()).unwrap();
        assert_eq!(difference(bad.as_bytes(), bad.as_bytes()), None);
        assert_eq!(differs(&bad.replace("1 ok", "2 ok")), "line 2 says \"0 0000000000000002 ok\", but it should say \"0 0000000000000001 ok\"");
        assert_eq!(differs("rows 9 letters 5\n"), "line 2 is not there, but it should say \"0 0000000000000001 ok\"");
        assert_eq!(differs(TICKS), "line 4 is not there, but it should say \"met 0 0 1\"");
        assert_eq!(differs(&bad.replace("total 3", "total 4")), "line 9 says \"total 4\", but it should say \"total 3\"");
        assert_eq!(differs(&format!("{bad}clean 2\n")), "line 10 says \"clean 2\", but it should not be there");
        assert_eq!(differs(bad.trim_end()), "line 9 says \"total 3\" without a line feed, but it should say \"total 3\"");
        assert!(differs(&"x".repeat(500)).len() < 200);
    }
}

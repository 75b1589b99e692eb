//! Reads tables of totals back and compares them with the feet of the sheets and with the rule texts; and lets the library itself say which letter
//! stands at a place.

mod common;

use common::Case;
use std::collections::BTreeSet;
use std::fs;
use std::path::Path;
use waves::letters::{self, Letter, Part};
use waves::rules::{self, Rules};
use waves::{library, sheet, totals};

fn is_refused(case: &Case) -> bool {
    case.last_line()[0] == "refused"
}

/// The three numbers of each `met` line of a sheet, read here anew, and the one of `total`.
fn foot(case: &Case) -> (Vec<Vec<usize>>, usize) {
    let sheet = case.sheet();
    let numbers = |line: &str| line.split(' ').skip(1).map(|n| n.parse().unwrap()).collect::<Vec<usize>>();
    let met = sheet.lines().filter(|line| line.starts_with("met ")).map(numbers).collect();
    (met, numbers(sheet.lines().last().unwrap())[0])
}

/// The cells of a table's line, cut where the heading's columns stand: a left column from its heading on, a right one up to its heading's end.
fn cells<'a>(line: &'a str, heading: &str) -> Vec<&'a str> {
    let begin = |name: &str| heading.find(name).unwrap();
    let end = |name: &str| begin(name) + name.len();
    let cuts = [0, begin("letter"), end("letter"), end("met"), end("line"), end("column"), begin("text"), begin("production")];
    let piece = |at: usize| line.get(cuts[at]..cuts.get(at + 1).copied().unwrap_or(line.len()).min(line.len())).unwrap_or("").trim();
    (0..cuts.len()).map(piece).filter(|cell| !cell.is_empty()).collect()
}

/// What stands in a text from a line and column on, with a space for all white space between words.
fn text_from(text: &str, line: usize, column: usize) -> String {
    let lines: Vec<&str> = text.split('\n').skip(line - 1).collect();
    lines.join("\n")[column - 1..].split_whitespace().collect::<Vec<&str>>().join(" ")
}

fn number(cell: &str) -> usize {
    cell.parse().unwrap()
}

/// A row's monitor, letter and count, and where and what it says that the letter is. The monitor's name and the first production are one.
fn row<'a>(cells: &[&'a str], rules: &Rules) -> (Vec<usize>, String, &'a str) {
    let [monitor, letter, met, line, column, text, productions] = cells[..] else { panic!("{cells:?}") };
    let (monitor, name) = monitor.split_once(' ').unwrap();
    assert_eq!(name, format!("({})", rules.monitors[number(monitor)]));
    assert_eq!(productions.split(" > ").next().unwrap(), rules.monitors[number(monitor)]);
    assert!(text_from(&rules.text, number(line), number(column)).starts_with(text), "{text} is not at line {line}, column {column}");
    (vec![number(monitor), number(letter), number(met)], format!("\"{text}\" at line {line}, column {column}"), productions)
}

fn check(case: &Case) {
    let name = &case.name;
    let rules = rules::open(&case.text).unwrap();
    let said = totals::write(&rules, &sheet::read(case.sheet().as_bytes()).unwrap()).unwrap();
    let lines: Vec<&str> = said.lines().collect();
    let (due, sum) = foot(case);
    let ticks = case.words().len() - usize::from(!lines[0].starts_with("clean"));
    assert_eq!(lines[1], "");
    let mut zeros = Vec::new();
    for (line, due) in lines[3..].iter().zip(&due) {
        let (numbers, letter, productions) = row(&cells(line, lines[2]), &rules);
        assert_eq!(&numbers, due, "{name}");
        assert!(numbers[2] <= ticks, "{name}: {line}");
        if numbers[2] == 0 {
            zeros.push((format!("never met: letter {} of monitor {} (", numbers[1], numbers[0]), letter, productions));
        }
    }
    let rest = &lines[3 + due.len()..];
    assert_eq!((rest[0].split_whitespace().collect::<Vec<&str>>(), rest[1]), (vec!["total", sum.to_string().as_str()], ""), "{name}");
    if zeros.is_empty() {
        assert_eq!(rest[2..], ["every letter was met"], "{name}");
    } else {
        assert_eq!(rest.len() - 2, zeros.len(), "{name}");
    }
    for (line, (begin, letter, productions)) in rest[2..].iter().zip(zeros) {
        assert!(line.starts_with(&begin) && line.contains(&letter), "{name}: {line}");
        let uses = line.split(", through ").nth(1).map_or(vec![], |uses| uses.split(", then ").collect());
        let named: Vec<&str> = uses.iter().map(|part| part.split(' ').next().unwrap()).collect();
        assert_eq!(named, productions.split(" > ").skip(1).collect::<Vec<&str>>(), "{name}: {line}");
    }
}

#[test]
fn tables_say_what_the_feet_say() {
    let (refused, judged): (Vec<Case>, Vec<Case>) = common::cases().into_iter().partition(is_refused);
    assert!(refused.len() > 3 && judged.len() > 100);
    judged.iter().for_each(check);
    for case in refused {
        let sheet = sheet::read(case.sheet().as_bytes()).unwrap();
        let message = totals::write(&rules::open(&case.text).unwrap(), &sheet).unwrap_err();
        assert!(message.starts_with("there are no totals, as the sheet ends with a refusal: refused "), "{}: {message}", case.name);
    }
}

/// The rule texts of all cases and of the shipped ones, each once, as far as the library accepts them.
fn accepted_texts() -> BTreeSet<Vec<u8>> {
    let mut texts: BTreeSet<Vec<u8>> = common::cases().into_iter().map(|case| case.text).collect();
    let folder = Path::new(env!("CARGO_MANIFEST_DIR")).join("../crates/vectors/data");
    for file in ["edge.bin", "boundary.bin", "random.bin"] {
        texts.extend(shipped_texts(&fs::read(folder.join(file)).unwrap()));
    }
    texts.retain(|text| rules::open(text).is_ok());
    assert!(texts.len() > 200, "there are {} texts only", texts.len());
    texts
}

/// A shipped case is four strings, each behind its length: name, text, trace and sheet.
fn shipped_texts(mut bytes: &[u8]) -> Vec<Vec<u8>> {
    let mut strings = Vec::new();
    while let Some((length, rest)) = bytes.split_first_chunk() {
        let (string, behind) = rest.split_at(u32::from_le_bytes(*length) as usize);
        strings.push(string.to_vec());
        bytes = behind;
    }
    strings.chunks(4).map(|case| case[1].clone()).collect()
}

/// The bytes of the text that a part is of.
fn range(text: &str, part: &Part) -> std::ops::Range<usize> {
    let before: usize = text.split_inclusive('\n').take(part.line - 1).map(str::len).sum();
    let from = before + part.column - 1;
    let is_part = |&to: &usize| text[from..to].split_whitespace().collect::<Vec<&str>>().join(" ") == part.text;
    from..(from + part.text.len()..=text.len()).find(is_part).unwrap()
}

/// A letter that no word meets, of the first wire.
fn impossible(rules: &Rules) -> Option<String> {
    rules.wires.first().map(|wire| format!("{}[0] & !{}[0]", wire.name, wire.name))
}

/// In place of a letter's part an impossible letter is put: then the library names the first letter that has this part.
fn is_named_by_the_library(rules: &Rules, letters: &[Vec<Letter>], part: &Part) -> bool {
    let Some(impossible) = impossible(rules) else {
        return false;
    };
    let mut text = rules.text.clone();
    text.replace_range(range(&rules.text, part), &impossible);
    if text.len() > 16_384 {
        return false;
    }
    let places = letters.iter().enumerate().flat_map(|(monitor, letters)| (0..letters.len()).map(move |letter| (monitor, letter)));
    let (monitor, letter) = places.into_iter().find(|&(monitor, letter)| &letters[monitor][letter].part == part).unwrap();
    let said = String::from_utf8(library::sheet(text.as_bytes(), &[])).unwrap();
    assert_eq!(said, format!("refused 9 {monitor} {letter}\n"), "{}", rules.text);
    true
}

#[test]
fn letters_are_those_of_the_library() {
    let mut named = 0;
    for text in accepted_texts() {
        let rules = rules::open(&text).unwrap();
        let letters = letters::of(&rules).unwrap();
        let met = sheet::read(&library::sheet(&text, &[])).unwrap().met;
        assert!(letters.iter().map(Vec::len).eq(met.iter().map(Vec::len)), "{}", rules.text);
        let mut parts: Vec<&Part> = letters.iter().flatten().map(|letter| &letter.part).collect();
        parts.dedup();
        named += parts.into_iter().filter(|part| is_named_by_the_library(&rules, &letters, part)).count();
    }
    assert!(named > 1_000, "the library named {named} letters only");
}

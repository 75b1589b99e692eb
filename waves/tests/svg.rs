//! Reads pictures back: they are well-formed XML that needs nothing from outside, no text runs into another, and the waves show the sheet's words.

mod common;

use common::Case;
use std::collections::BTreeMap;
use std::ops::Range;
use waves::rules::{self, Rules};
use waves::{sheet, svg};

/// An element, with its attributes and its text.
#[derive(Debug)]
struct Element {
    name: String,
    attributes: BTreeMap<String, String>,
    text: String,
}

impl Element {
    fn number(&self, name: &str) -> f64 {
        self.attributes[name].parse().unwrap()
    }

    /// Left, right, top and bottom of a text in a font whose characters are 0.61 of its size wide, which is more than monospace fonts have.
    fn room(&self) -> [f64; 4] {
        let (x, y, size) = (self.number("x"), self.number("y"), self.number("font-size"));
        let width = 0.61 * size * self.text.chars().count() as f64;
        let left = match self.attributes.get("text-anchor").map(String::as_str) {
            None => x,
            Some("middle") => x - width / 2.0,
            Some("end") => x - width,
            Some(other) => panic!("text-anchor {other}"),
        };
        [left, left + width, y - 0.8 * size, y + 0.25 * size]
    }
}

/// The elements of a document. Every form that is not expected here is a failure.
fn read(document: &str) -> Vec<Element> {
    let mut elements: Vec<Element> = Vec::new();
    let mut open: Vec<usize> = Vec::new();
    let mut rest = document;
    while let Some(start) = rest.find('<') {
        let text = unescaped(&rest[..start]);
        match open.last() {
            Some(&parent) => elements[parent].text.push_str(text.trim_matches('\n')),
            None => assert!(text.trim().is_empty()),
        }
        let end = start + rest[start..].find('>').unwrap();
        let tag = &rest[start + 1..end];
        rest = &rest[end + 1..];
        if let Some(name) = tag.strip_prefix('/') {
            assert_eq!(elements[open.pop().unwrap()].name, name);
            continue;
        }
        assert!(!open.is_empty() || elements.is_empty(), "one element holds all");
        let (tag, closed) = tag.strip_suffix('/').map_or((tag, false), |tag| (tag, true));
        let (name, attributes) = tag.split_once(' ').unwrap_or((tag, ""));
        if !closed {
            open.push(elements.len());
        }
        elements.push(Element { name: String::from(name), attributes: read_attributes(attributes), text: String::new() });
    }
    assert!(open.is_empty() && rest.trim().is_empty());
    elements
}

fn read_attributes(mut rest: &str) -> BTreeMap<String, String> {
    let mut attributes = BTreeMap::new();
    while !rest.is_empty() {
        let (name, behind) = rest.split_once("=\"").unwrap();
        let (value, behind) = behind.split_once('"').unwrap();
        assert!(name.bytes().all(|b| b.is_ascii_alphabetic() || b == b'-'), "{name}");
        assert_eq!(attributes.insert(String::from(name), unescaped(value)), None, "{name} stands twice");
        rest = behind.trim_start();
    }
    attributes
}

fn unescaped(text: &str) -> String {
    let mut parts = text.split('&');
    let mut out = String::from(parts.next().unwrap());
    for part in parts {
        let (entity, behind) = part.split_once(';').unwrap();
        out.push(match entity {
            "amp" => '&',
            "lt" => '<',
            "gt" => '>',
            "quot" => '"',
            "apos" => '\'',
            _ => panic!("entity {entity}"),
        });
        out.push_str(behind);
    }
    out
}

fn needs_nothing_from_outside(elements: &[Element]) {
    for element in elements {
        assert!(["svg", "title", "rect", "text", "path", "defs", "pattern"].contains(&element.name.as_str()), "{}", element.name);
        for (name, value) in &element.attributes {
            assert!(!name.starts_with("on") && name != "href" && name != "style", "{name}");
            assert!(!value.contains("://") || name == "xmlns", "{value}");
        }
    }
}

fn no_text_runs_into_another(elements: &[Element], name: &str) {
    let (width, height) = (elements[0].number("width"), elements[0].number("height"));
    let texts: Vec<&Element> = elements.iter().filter(|element| element.name == "text").collect();
    for (index, text) in texts.iter().enumerate() {
        let [left, right, top, bottom] = text.room();
        assert!(left >= 0.0 && right <= width && top >= 0.0 && bottom <= height, "{name}: {text:?} leaves the picture");
        for other in &texts[..index] {
            let room = other.room();
            let apart = right <= room[0] || room[1] <= left || bottom <= room[2] || room[3] <= top;
            assert!(apart, "{name}: {text:?} runs into {other:?}");
        }
    }
}

/// The points of a path of straight lines.
fn points(path: &str) -> Vec<(f64, f64)> {
    let starts: Vec<usize> = path.match_indices(|c: char| c.is_ascii_uppercase()).map(|(at, _)| at).collect();
    let mut points = Vec::new();
    let (mut x, mut y) = (0.0, 0.0);
    for (index, &start) in starts.iter().enumerate() {
        let step = &path[start..starts.get(index + 1).copied().unwrap_or(path.len())];
        let numbers: Vec<f64> = step[1..].split_whitespace().map(|n| n.parse().unwrap()).collect();
        match (&step[..1], &numbers[..]) {
            ("M" | "L", &[to_x, to_y]) => (x, y) = (to_x, to_y),
            ("H", &[to]) => x = to,
            ("V", &[to]) => y = to,
            ("Z", []) => continue,
            _ => panic!("step {step}"),
        }
        points.push((x, y));
    }
    points
}

/// The least and the greatest of some numbers.
fn extent(numbers: impl Iterator<Item = f64>) -> (f64, f64) {
    numbers.fold((f64::MAX, f64::MIN), |(least, greatest), n| (least.min(n), greatest.max(n)))
}

fn within(n: f64, (least, greatest): (f64, f64)) -> bool {
    least < n && n < greatest
}

/// A square wave, or the box of a value.
struct Wave {
    points: Vec<(f64, f64)>,
    closed: bool,
}

fn waves(elements: &[Element]) -> Vec<Wave> {
    let paths = elements.iter().filter(|e| e.name == "path" && e.attributes["stroke"] == "#1f3a5f").map(|e| &e.attributes["d"]);
    paths.map(|path| Wave { points: points(path), closed: path.ends_with('Z') }).collect()
}

/// The value that a picture shows for a wire at a place: `x` is in the middle of a tick and `y` in the middle of the wire's row, which is 36 high.
fn shown_value(waves: &[Wave], elements: &[Element], x: f64, y: f64) -> Option<u64> {
    let mut values = Vec::new();
    for wave in waves.iter().filter(|wave| wave.points.iter().all(|p| within(p.1, (y - 18.0, y + 18.0)))) {
        let wide = extent(wave.points.iter().map(|p| p.0));
        if !within(x, wide) {
            continue;
        }
        if wave.closed {
            let high = extent(wave.points.iter().map(|p| p.1));
            let texts = elements.iter().filter(|e| e.name == "text" && within(e.number("x"), wide) && within(e.number("y"), high));
            let said: Vec<u64> = texts.map(|e| number(&e.text)).collect();
            assert!(!said.is_empty() && said.iter().all(|&value| value == said[0]));
            values.push(said[0]);
        } else {
            let level = wave.points.windows(2).find(|p| p[0].0 < x && x < p[1].0).unwrap()[0].1;
            assert_ne!(level, y);
            values.push(u64::from(level < y));
        }
    }
    assert!(values.len() <= 1, "two waves at one place");
    values.pop()
}

fn number(text: &str) -> u64 {
    match text.strip_prefix("0x") {
        Some(digits) => u64::from_str_radix(digits, 16).unwrap(),
        None => text.parse().unwrap(),
    }
}

fn shows_the_words(elements: &[Element], case: &Case, rules: &Rules, ticks: &Range<usize>) {
    let (words, waves, name) = (case.words(), waves(elements), &case.name);
    let texts = || elements.iter().filter(|e| e.name == "text");
    let tick_y = texts().find(|e| e.text == "tick").unwrap().number("y");
    let numbers: Vec<(usize, f64)> =
        texts().filter(|e| e.number("y") == tick_y && e.text != "tick").map(|e| (e.text.parse().unwrap(), e.number("x"))).collect();
    assert!(numbers.iter().map(|n| n.0).eq(ticks.clone()), "{name}: tick numbers");
    let labels: Vec<&Element> = texts().filter(|e| e.number("y") > tick_y && !e.attributes.contains_key("text-anchor")).collect();
    let mut low = 0;
    for (wire, label) in rules.wires.iter().zip(&labels) {
        let due = if wire.width == 1 { wire.name.clone() } else { format!("{}[{}:0]", wire.name, wire.width - 1) };
        assert_eq!(label.text, due, "{name}");
        for &(tick, x) in &numbers {
            let due = words.get(tick).map(|word| word >> low & (u64::MAX >> (64 - wire.width)));
            assert_eq!(shown_value(&waves, elements, x, label.number("y") - 4.0), due, "{name}: {} at tick {tick}", wire.name);
        }
        low += wire.width;
    }
    assert_eq!(labels.len(), rules.wires.len().max(1), "{name}: labels");
}

/// The heading that the last line above the sheet's foot asks for, and the word at the marked column.
fn verdict(case: &Case, rules: &Rules) -> (String, Option<&'static str>) {
    let line = case.last_line();
    match line.iter().map(String::as_str).collect::<Vec<&str>>()[..] {
        ["clean", "1"] => (String::from("clean 1 tick"), None),
        ["clean", ticks] => (format!("clean {ticks} ticks"), None),
        ["refused", number, tick] => {
            let word = [("13", "torn"), ("14", "idle byte"), ("15", "stray"), ("17", "full")].iter().find(|w| w.0 == number).unwrap().1;
            (format!("refused {number} ({word}) at tick {tick}"), Some("refused"))
        }
        [tick, _, "bad", number] => (format!("bad at tick {tick}: {}", named(number.parse().unwrap(), rules)), Some("bad")),
        _ => panic!("{line:?}"),
    }
}

/// The monitor of a number, or the limit, whose statement is looked up here anew: all of them are in the text in order.
fn named(number: usize, rules: &Rules) -> String {
    if number < 32 {
        return format!("monitor {number} ({})", rules.monitors[number]);
    }
    let statement = rules.text.split("limit ").nth(number - 32 + 1).unwrap().split(';').next().unwrap();
    format!("limit {} ({statement})", number - 32)
}

fn marks_the_last_tick(elements: &[Element], case: &Case, rules: &Rules, ticks: &Range<usize>) {
    let name = &case.name;
    let (heading, word) = verdict(case, rules);
    assert!(elements.iter().any(|e| e.name == "text" && e.text == heading), "{name}: {heading}");
    let all = case.words().len() + usize::from(word == Some("refused"));
    let word = word.filter(|_| ticks.end == all);
    let borders: Vec<&Element> = elements.iter().filter(|e| e.name == "rect" && e.attributes["fill"] == "none").collect();
    let hatchings = elements.iter().filter(|e| e.attributes.get("fill").is_some_and(|fill| fill.starts_with("url(#"))).count();
    let at_end = |e: &&Element| e.attributes.get("text-anchor").is_some_and(|anchor| anchor == "end");
    let words: Vec<&str> = elements.iter().filter(at_end).map(|e| e.text.as_str()).collect();
    assert_eq!(words, word.into_iter().collect::<Vec<&str>>(), "{name}");
    assert_eq!((borders.len(), hatchings), (words.len(), words.len()), "{name}");
    if let [border] = borders[..] {
        let (left, right) = (border.number("x"), border.number("x") + border.number("width"));
        let marked: Vec<&str> = elements
            .iter()
            .filter(|e| {
                e.name == "text" && within(e.number("x"), (left, right)) && within(e.number("y"), (border.number("y"), border.number("y") + 24.0))
            })
            .map(|e| e.text.as_str())
            .collect();
        assert_eq!(marked, [(all - 1).to_string()], "{name}: the tick that is marked");
        let (top, bottom) = (border.number("y"), border.number("y") + border.number("height"));
        for text in elements.iter().filter(|e| e.name == "text" && within(e.number("y"), (top, bottom))) {
            let [start, end, ..] = text.room();
            assert!(!within(left, (start, end)) && !within(right, (start, end)), "{name}: the border crosses {text:?}");
        }
    }
}

fn check(case: &Case, chosen: Option<Range<usize>>) {
    let rules = rules::open(&case.text).unwrap();
    let sheet = sheet::read(case.sheet().as_bytes()).unwrap();
    let ticks = chosen.unwrap_or_else(|| svg::last_ticks(&sheet));
    let elements = read(&svg::write("rules.txt", &rules, &sheet, ticks.clone()));
    needs_nothing_from_outside(&elements);
    no_text_runs_into_another(&elements, &case.name);
    shows_the_words(&elements, case, &rules, &ticks);
    marks_the_last_tick(&elements, case, &rules, &ticks);
}

#[test]
fn pictures_show_what_the_sheets_say() {
    for case in common::cases() {
        check(&case, None);
    }
}

#[test]
fn parts_are_shown_alone() {
    for case in common::cases() {
        let ticks = case.words().len();
        for chosen in [0..1, 1..3, 0..ticks.min(9), ticks.saturating_sub(3)..ticks] {
            if chosen.start < chosen.end && chosen.end <= ticks {
                check(&case, Some(chosen));
            }
        }
    }
}

#[test]
fn names_of_files_are_escaped() {
    let case = common::cases().into_iter().find(|case| case.name == "torn").unwrap();
    let (rules, sheet) = (rules::open(&case.text).unwrap(), sheet::read(case.sheet().as_bytes()).unwrap());
    let elements = read(&svg::write("</text> & \"rules\".txt", &rules, &sheet, 0..1));
    no_text_runs_into_another(&elements, "names of files");
    assert!(elements.iter().any(|e| e.name == "text" && e.text == "</text> & \"rules\".txt"));
}

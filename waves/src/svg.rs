//! A waveform as a picture (SVG) for people.
//!
//! Names stand at the left and tick numbers along the top. A wire of one bit is a square wave, with a tint below it while it is 1; a field is a row
//! of boxes with its value in each. A bad tick or a refused one is a column with hatching, a border and a word below it. All text is monospace, so
//! that its width is known: the columns are as wide as the longest value and the longest tick number need.

use crate::refusals;
use crate::rules::{Rules, Wire};
use crate::sheet::{End, Sheet};
use std::ops::Range;

/// How many ticks are shown if none are chosen, and how many may be chosen.
const SHOWN_TICKS: usize = 64;
const MOST_TICKS: usize = 1_000;

/// Font sizes, and the room for a character: a little more than the 0.6 of the size that monospace fonts take.
const SIZE: usize = 12;
const LETTER: usize = 8;
const HEAD_SIZE: usize = 14;
const HEAD_LETTER: usize = 9;

const MARGIN: usize = 16;
const HEAD_LINE: usize = 20;
const TICK_LINE: usize = 24;
const ROW: usize = 36;
/// A wave's room above and below it in its row.
const AIR: usize = 7;
const NARROWEST_COLUMN: usize = 28;

const INK: &str = "#1f3a5f";
const TEXT: &str = "#222222";
const GRID: &str = "#d5d5d5";

/// The last ticks of a sheet.
pub fn last_ticks(sheet: &Sheet) -> Range<usize> {
    sheet.ticks().saturating_sub(SHOWN_TICKS)..sheet.ticks()
}

/// The ticks from one to another, both included.
pub fn chosen_ticks(from: &str, to: &str, sheet: &Sheet) -> Result<Range<usize>, String> {
    let (first, last) = (tick_number(from)?, tick_number(to)?);
    if sheet.ticks() == 0 {
        return Err(String::from("the trace has no ticks, so none can be chosen"));
    }
    if first > last {
        return Err(format!("the first tick to show, {first}, is behind the last, {last}"));
    }
    if last >= sheet.ticks() {
        return Err(format!("there is no tick {last}; the sheet has ticks 0 to {}", sheet.ticks() - 1));
    }
    if last - first >= MOST_TICKS {
        return Err(format!("ticks {first} to {last} are more than the {MOST_TICKS} that a picture may show"));
    }
    Ok(first..last + 1)
}

fn tick_number(text: &str) -> Result<usize, String> {
    let digits = !text.is_empty() && text.bytes().all(|b| b.is_ascii_digit());
    if !digits {
        return Err(format!("the tick {text:?} is no number; choose ticks by their numbers, such as 0 63"));
    }
    Ok(text.parse().unwrap_or(usize::MAX))
}

/// The picture of some ticks of a sheet; `name` is that of the rule text.
pub fn write(name: &str, rules: &Rules, sheet: &Sheet, ticks: Range<usize>) -> String {
    let heads = head_lines(name, rules, sheet, &ticks);
    let picture = Picture::new(rules, sheet, ticks, heads.len());
    let widest = heads.iter().map(|line| MARGIN + columns(line) * HEAD_LETTER).max().unwrap_or(0);
    let (width, height) = (picture.right().max(widest) + MARGIN, picture.bottom() + TICK_LINE + MARGIN / 2);
    let mut out = format!(
        "<svg xmlns=\"http://www.w3.org/2000/svg\" width=\"{width}\" height=\"{height}\" viewBox=\"0 0 {width} {height}\" \
         font-family=\"monospace\">\n"
    );
    out.push_str(&format!("<title>{}: {}</title>\n", escaped(name), escaped(&sheet.verdict(rules))));
    out.push_str(&format!("<rect width=\"{width}\" height=\"{height}\" fill=\"#ffffff\"/>\n"));
    for (index, line) in heads.iter().enumerate() {
        let colour = if index == 1 { picture.end_colour() } else { TEXT };
        let weight = if index < 2 { "bold" } else { "normal" };
        out.push_str(&format!(
            "<text x=\"{MARGIN}\" y=\"{}\" font-size=\"{HEAD_SIZE}\" font-weight=\"{weight}\" fill=\"{colour}\">{}</text>\n",
            MARGIN + HEAD_SIZE + index * HEAD_LINE,
            escaped(line)
        ));
    }
    out.push_str(&picture.hatching());
    out.push_str(&picture.grid());
    out.push_str(&picture.names());
    for (row, wire) in rules.wires.iter().enumerate() {
        out.push_str(&picture.wave(row, wire));
    }
    out.push_str(&picture.border());
    out.push_str("</svg>\n");
    out
}

/// The lines above the waveform: the rule text's name, the verdict, why a tick was refused, and the ticks shown.
fn head_lines(name: &str, rules: &Rules, sheet: &Sheet, ticks: &Range<usize>) -> Vec<String> {
    let mut lines = vec![String::from(name), sheet.verdict(rules)];
    if let End::Refused(number) = sheet.end {
        lines.push(String::from(refusals::reason(number)));
    }
    let last = sheet.ticks().saturating_sub(1);
    lines.push(match (sheet.ticks(), ticks.len()) {
        (0, _) => String::from("the trace has no ticks"),
        (all, shown) if all == shown => String::from("all judged ticks are shown"),
        (_, 1) => format!("tick {} is shown, of ticks 0 to {last}", ticks.start),
        _ => format!("ticks {} to {} are shown, of ticks 0 to {last}", ticks.start, ticks.end - 1),
    });
    lines
}

/// A column that stands out: its tick, the word below it, its dark and its light colour.
struct Mark {
    tick: usize,
    word: &'static str,
    dark: &'static str,
    light: &'static str,
    stripe: &'static str,
}

/// What is drawn and where: `left` and `top` are the corner of the waveform, `column` is the width of a tick.
struct Picture<'a> {
    sheet: &'a Sheet,
    labels: Vec<String>,
    ticks: Range<usize>,
    left: usize,
    top: usize,
    column: usize,
}

impl<'a> Picture<'a> {
    fn new(rules: &'a Rules, sheet: &'a Sheet, ticks: Range<usize>, head_lines: usize) -> Self {
        let mut labels: Vec<String> = rules.wires.iter().map(Wire::label).collect();
        if labels.is_empty() {
            labels.push(String::from("(no wires)"));
        }
        let longest = labels.iter().map(String::len).max().unwrap_or(0);
        let left = MARGIN + longest.max("refused".len()) * LETTER + MARGIN;
        let top = MARGIN + head_lines * HEAD_LINE + MARGIN + TICK_LINE;
        let column = column_width(rules, sheet, &ticks);
        Picture { sheet, labels, ticks, left, top, column }
    }

    /// Where a tick begins.
    fn x(&self, tick: usize) -> usize {
        self.left + (tick - self.ticks.start) * self.column
    }

    /// Where the row of a wire begins.
    fn y(&self, row: usize) -> usize {
        self.top + row * ROW
    }

    fn right(&self) -> usize {
        self.left + self.ticks.len().max(1) * self.column
    }

    fn bottom(&self) -> usize {
        self.y(self.labels.len())
    }

    /// The column of the bad or refused tick, if it is shown.
    fn mark(&self) -> Option<Mark> {
        let tick = self.sheet.ticks().checked_sub(1).filter(|tick| self.ticks.contains(tick))?;
        let dark = self.end_colour();
        match self.sheet.end {
            End::Clean => None,
            End::Bad(_) => Some(Mark { tick, word: "bad", dark, light: "#fde7e7", stripe: "#f0a0a0" }),
            End::Refused(_) => Some(Mark { tick, word: "refused", dark, light: "#fff3d6", stripe: "#eebf55" }),
        }
    }

    /// The dark colour of the verdict.
    fn end_colour(&self) -> &'static str {
        match self.sheet.end {
            End::Clean => "#1b5e20",
            End::Bad(_) => "#b00020",
            End::Refused(_) => "#8a5a00",
        }
    }

    /// The ground of the marked column, below everything else.
    fn hatching(&self) -> String {
        let Some(mark) = self.mark() else {
            return String::new();
        };
        let (x, width, light) = (self.x(mark.tick), self.column, mark.light);
        format!(
            "<defs><pattern id=\"{word}-hatching\" width=\"8\" height=\"8\" patternUnits=\"userSpaceOnUse\" patternTransform=\"rotate(45)\">\
             <rect width=\"8\" height=\"8\" fill=\"{light}\"/><path d=\"M2 0V8\" stroke=\"{stripe}\" stroke-width=\"2\"/></pattern></defs>\n\
             <rect x=\"{x}\" y=\"{}\" width=\"{width}\" height=\"{TICK_LINE}\" fill=\"{light}\"/>\n\
             <rect x=\"{x}\" y=\"{}\" width=\"{width}\" height=\"{}\" fill=\"url(#{word}-hatching)\"/>\n",
            self.top - TICK_LINE,
            self.top,
            self.bottom() - self.top,
            word = mark.word,
            stripe = mark.stripe,
        )
    }

    /// The border of the marked column and the word below it, above everything else.
    fn border(&self) -> String {
        let Some(mark) = self.mark() else {
            return String::new();
        };
        let (x, y, width, dark) = (self.x(mark.tick), self.top - TICK_LINE, self.column, mark.dark);
        format!(
            "<rect x=\"{x}\" y=\"{y}\" width=\"{width}\" height=\"{}\" fill=\"none\" stroke=\"{dark}\" stroke-width=\"3\"/>\n\
             <text x=\"{}\" y=\"{}\" font-size=\"{SIZE}\" font-weight=\"bold\" text-anchor=\"end\" fill=\"{dark}\">{}</text>\n",
            self.bottom() - y,
            x + width,
            self.bottom() + SIZE + 4,
            mark.word,
        )
    }

    /// Lines between ticks and between wires.
    fn grid(&self) -> String {
        let mut lines = String::new();
        for tick in self.ticks.start..self.ticks.start + self.ticks.len().max(1) + 1 {
            lines.push_str(&format!("M{} {}V{}", self.x(tick), self.top, self.bottom()));
        }
        for row in 0..=self.labels.len() {
            lines.push_str(&format!("M{MARGIN} {}H{}", self.y(row), self.right()));
        }
        format!("<path d=\"{lines}\" fill=\"none\" stroke=\"{GRID}\"/>\n")
    }

    /// The names of the wires and the numbers of the ticks.
    fn names(&self) -> String {
        let tick_y = self.top - SIZE / 2 - 2;
        let mut out = format!("<text x=\"{MARGIN}\" y=\"{tick_y}\" font-size=\"{SIZE}\" fill=\"{TEXT}\">tick</text>\n");
        for tick in self.ticks.clone() {
            out.push_str(&centred(self.x(tick) + self.column / 2, tick_y, &tick.to_string()));
        }
        for (row, label) in self.labels.iter().enumerate() {
            let y = self.y(row) + ROW / 2 + SIZE / 3;
            out.push_str(&format!(
                "<text x=\"{MARGIN}\" y=\"{y}\" font-size=\"{SIZE}\" font-weight=\"bold\" fill=\"{TEXT}\">{}</text>\n",
                escaped(label)
            ));
        }
        out
    }

    fn wave(&self, row: usize, wire: &Wire) -> String {
        let runs = runs(wire, self.sheet, &self.ticks);
        if wire.width == 1 {
            self.square_wave(row, &runs)
        } else {
            runs.iter().map(|run| self.value_box(row, run)).collect()
        }
    }

    fn square_wave(&self, row: usize, runs: &[Run]) -> String {
        let (high, low) = (self.y(row) + AIR, self.y(row) + ROW - AIR);
        let mut tints = String::new();
        let mut line = String::new();
        for run in runs {
            let (x, end) = (self.x(run.ticks.start), self.x(run.ticks.end));
            let level = if run.value == 1 { high } else { low };
            if run.value == 1 {
                let (width, height) = (end - x, low - high);
                tints.push_str(&format!(
                    "<rect x=\"{x}\" y=\"{high}\" width=\"{width}\" height=\"{height}\" fill=\"{INK}\" fill-opacity=\"0.18\"/>\n"
                ));
            }
            let step = if line.is_empty() { format!("M{x} {level}") } else { format!("V{level}") };
            line.push_str(&format!("{step}H{end}"));
        }
        if line.is_empty() {
            return String::new();
        }
        format!("{tints}<path d=\"{line}\" fill=\"none\" stroke=\"{INK}\" stroke-width=\"2\"/>\n")
    }

    fn value_box(&self, row: usize, run: &Run) -> String {
        let (x, end) = (self.x(run.ticks.start), self.x(run.ticks.end));
        let (high, middle, low) = (self.y(row) + AIR, self.y(row) + ROW / 2, self.y(row) + ROW - AIR);
        let (start, stop) = (x + 4, end - 4);
        let mut out = format!(
            "<path d=\"M{x} {middle}L{start} {high}H{stop}L{end} {middle}L{stop} {low}H{start}Z\" \
             fill=\"#f4f7fb\" stroke=\"{INK}\" stroke-width=\"1.5\"/>\n"
        );
        for part in text_parts(run, self.sheet) {
            let centre = (self.x(part.start) + self.x(part.end)) / 2;
            out.push_str(&centred(centre, middle + SIZE / 3, &value_text(run.value)));
        }
        out
    }
}

/// Ticks in which a wire keeps its value.
struct Run {
    ticks: Range<usize>,
    value: u64,
}

/// The runs of a wire in the ticks shown that have a word.
fn runs(wire: &Wire, sheet: &Sheet, ticks: &Range<usize>) -> Vec<Run> {
    let mut runs: Vec<Run> = Vec::new();
    for (tick, &word) in sheet.words.iter().enumerate().take(ticks.end).skip(ticks.start) {
        let value = wire.value(word);
        match runs.last_mut() {
            Some(run) if run.value == value => run.ticks.end = tick + 1,
            _ => runs.push(Run { ticks: tick..tick + 1, value }),
        }
    }
    runs
}

/// The parts of a run that get its value as text: all of it, except that the column of a bad tick, which has a border, gets its own.
fn text_parts(run: &Run, sheet: &Sheet) -> Vec<Range<usize>> {
    let Range { start, end } = run.ticks;
    let border = if matches!(sheet.end, End::Bad(_)) && end == sheet.ticks() { end - 1 } else { end };
    [start..border, border..end].into_iter().filter(|part| !part.is_empty()).collect()
}

/// The width of a tick: each tick number fits, and each value fits wherever it stands.
fn column_width(rules: &Rules, sheet: &Sheet, ticks: &Range<usize>) -> usize {
    let number = ticks.end.to_string().len() * LETTER + LETTER;
    let mut width = number.max(NARROWEST_COLUMN);
    for wire in rules.wires.iter().filter(|wire| wire.width > 1) {
        for run in runs(wire, sheet, ticks) {
            let room = value_text(run.value).len() * LETTER + 2 * LETTER;
            width = text_parts(&run, sheet).iter().map(|part| room.div_ceil(part.len())).fold(width, usize::max);
        }
    }
    width
}

/// Below 10 decimal and hexadecimal are the same.
fn value_text(value: u64) -> String {
    if value < 10 {
        return value.to_string();
    }
    format!("0x{value:x}")
}

fn centred(x: usize, y: usize, text: &str) -> String {
    format!("<text x=\"{x}\" y=\"{y}\" font-size=\"{SIZE}\" text-anchor=\"middle\" fill=\"{TEXT}\">{text}</text>\n")
}

/// How many characters wide a text is at most; those beyond ASCII may take twice the room.
fn columns(text: &str) -> usize {
    text.chars().map(|c| if c.is_ascii() { 1 } else { 2 }).sum()
}

/// Text for XML. Characters that XML does not allow are replaced.
fn escaped(text: &str) -> String {
    let mut out = String::new();
    for c in text.chars() {
        match c {
            '&' => out.push_str("&amp;"),
            '<' => out.push_str("&lt;"),
            '>' => out.push_str("&gt;"),
            '"' => out.push_str("&quot;"),
            '\'' => out.push_str("&apos;"),
            '\u{fffe}' | '\u{ffff}' => out.push('\u{fffd}'),
            c if c.is_control() => out.push('\u{fffd}'),
            c => out.push(c),
        }
    }
    out
}

#[cfg(test)]
mod tests {
    use super::*;

    fn clean(ticks: usize) -> Sheet {
        Sheet { words: vec![0; ticks], end: End::Clean, met: vec![] }
    }

    #[test]
    fn the_last_64_ticks_are_shown() {
        assert_eq!(last_ticks(&clean(0)), 0..0);
        assert_eq!(last_ticks(&clean(64)), 0..64);
        assert_eq!(last_ticks(&clean(100)), 36..100);
        assert_eq!(last_ticks(&Sheet { words: vec![0; 100], end: End::Refused(13), met: vec![] }), 37..101);
    }

    #[test]
    fn ticks_are_chosen() {
        let chosen = |from: &str, to: &str| chosen_ticks(from, to, &clean(2_000));
        assert_eq!(chosen("3", "3"), Ok(3..4));
        assert_eq!(chosen("1000", "1999"), Ok(1_000..2_000));
        assert_eq!(chosen("x", "3").unwrap_err(), "the tick \"x\" is no number; choose ticks by their numbers, such as 0 63");
        assert_eq!(chosen("3", "").unwrap_err(), "the tick \"\" is no number; choose ticks by their numbers, such as 0 63");
        assert_eq!(chosen("4", "3").unwrap_err(), "the first tick to show, 4, is behind the last, 3");
        assert_eq!(chosen("3", "2000").unwrap_err(), "there is no tick 2000; the sheet has ticks 0 to 1999");
        assert!(chosen("3", &"9".repeat(40)).is_err());
        assert_eq!(chosen("0", "1000").unwrap_err(), "ticks 0 to 1000 are more than the 1000 that a picture may show");
        assert_eq!(chosen_ticks("0", "0", &clean(0)).unwrap_err(), "the trace has no ticks, so none can be chosen");
    }

    #[test]
    fn values_are_shown_in_hexadecimal_from_10_on() {
        assert_eq!([0, 9, 10, 16, u64::MAX].map(value_text), ["0", "9", "0xa", "0x10", "0xffffffffffffffff"]);
    }

    #[test]
    fn text_is_escaped() {
        assert_eq!(escaped("a<b>&\"c'\u{1}\u{ffff}\u{e9}"), "a&lt;b&gt;&amp;&quot;c&apos;\u{fffd}\u{fffd}\u{e9}");
    }

    #[test]
    fn runs_are_cut_at_the_ticks_shown() {
        let wire = Wire { name: String::from("f"), low: 0, width: 4 };
        let sheet = Sheet { words: vec![1, 1, 2, 2, 2, 3], end: End::Refused(13), met: vec![] };
        let shown: Vec<(Range<usize>, u64)> = runs(&wire, &sheet, &(1..7)).into_iter().map(|run| (run.ticks, run.value)).collect();
        assert_eq!(shown, [(1..2, 1), (2..5, 2), (5..6, 3)]);
    }
}

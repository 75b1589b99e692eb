//! How often each letter was met (docs/REFERENCE.md, F27 and F28), by the model, and so the foot that a sheet or an answer to calls must have (P10), or that it
//! must have none; and what must stand above it: the last line of a sheet, or the answer to every call. Of the refusals the model knows stray words and calls
//! behind a bad take; a million takes are left to other tests. And what a case shows that is easily missed: a letter that two branches have at one tick, a bad
//! tick that meets letters of other monitors, and a letter that is never met.

use crate::model::{Model, Said};
use crate::opened::{self, Opened};
use crate::{calls, compare, windows, Case};
use std::fmt;

/// The foot of a sheet or of an answer to calls, the lines right above it, and what the case shows.
pub struct Foot {
    /// Without the rows that a take touches.
    pub above: Vec<String>,
    pub lines: String,
    pub shown: Shown,
    pub limits: windows::Shown,
}

#[derive(Clone, Copy, Debug, Default, PartialEq, Eq)]
pub struct Shown {
    /// A letter was had by two branches at some tick.
    pub two_branches: bool,
    /// A bad tick met letters of a monitor that fits it: counted, they would have added something.
    pub bad_adds: bool,
    /// Letters were met, and one never was.
    pub never_met: bool,
}

/// A watch by the model, which counts what it meets.
struct Counting<'o> {
    opened: &'o Opened,
    model: Model<'o>,
    stopped: bool,
    /// For each letter, at how many ticks it was met.
    letters: Vec<u64>,
    /// For each tick, how many letters were met there.
    ticks: Vec<usize>,
    above: Vec<String>,
    shown: Shown,
    limits: windows::Shown,
}

impl<'o> Counting<'o> {
    fn new(opened: &'o Opened) -> Self {
        let (letters, limits) = (vec![0; opened.letters.len()], windows::Shown::new(&opened.limits));
        let shown = Shown::default();
        Counting { opened, model: Model::new(opened), stopped: false, letters, ticks: Vec::new(), above: Vec::new(), shown, limits }
    }

    /// The number that refuses a call, if it is refused.
    fn refusal(&self, word: u64) -> Option<u8> {
        let above = word.checked_shr(self.opened.wires).unwrap_or(0);
        match (self.stopped, above) {
            (true, _) => Some(16),
            (_, 0) => None,
            _ => Some(15),
        }
    }

    /// What a look at the word comes to, or the number that refuses it.
    fn look(&mut self, word: u64) -> Result<Said, u8> {
        if let Some(number) = self.refusal(word) {
            return Err(number);
        }
        let said = self.model.look(word);
        self.limits.look(said);
        Ok(said)
    }

    /// What a take of the word comes to, or the number that refuses it.
    fn take(&mut self, word: u64) -> Result<Said, u8> {
        if let Some(number) = self.refusal(word) {
            return Err(number);
        }
        let two_branches = self.model.ways(word) > 1;
        let said = self.model.take(word);
        if said == Said::Ok {
            self.shown.two_branches |= two_branches;
            self.limits.ok(&self.model);
            self.count();
        } else {
            self.stopped = true;
            self.shown.bad_adds = self.model.fitting(word) > 0;
            self.limits.bad(&self.model, word, said);
        }
        Ok(said)
    }

    /// Counts the letters of a tick that was ok, each once.
    fn count(&mut self) {
        let mut met = self.model.letters().to_vec();
        met.dedup();
        met.iter().for_each(|&letter| self.letters[letter] += 1);
        self.ticks.push(met.len());
    }

    fn foot(mut self) -> Foot {
        self.shown.never_met = !self.ticks.is_empty() && self.letters.contains(&0);
        let mut lines = String::new();
        let mut counts = self.letters.iter();
        for (monitor, letters) in self.opened.letters_of_monitors().into_iter().enumerate() {
            for (letter, count) in counts.by_ref().take(letters).enumerate() {
                lines += &format!("met {monitor} {letter} {count}\n");
            }
        }
        lines += &format!("total {}\n", self.ticks.iter().sum::<usize>());
        self.limits.close(&self.opened.limits);
        Foot { above: self.above, lines, shown: self.shown, limits: self.limits }
    }
}

/// The foot of a case's sheet; none if its text, a record or a word is refused.
pub fn of_sheet(case: &Case) -> Option<Foot> {
    let opened = opened::accepted(&case.text)?;
    let mut counting = Counting::new(&opened);
    let (words, whole) = compare::read(&case.trace);
    for (tick, word) in words.into_iter().enumerate() {
        if let Some(number) = counting.take(word).ok()?.number() {
            counting.above.push(format!("{tick} {word:016x} bad {number}"));
            return Some(counting.foot());
        }
    }
    counting.above.push(format!("clean {}", counting.ticks.len()));
    whole.then(|| counting.foot())
}

/// The foot of the answer to a case with calls; none if its text is refused.
pub fn of_calls(case: &Case) -> Option<Foot> {
    let opened = opened::accepted(&case.text)?;
    let mut counting = Counting::new(&opened);
    for (call, word) in calls::calls_of(&case.trace) {
        let (name, came) = if call == calls::LOOK { ("look", counting.look(word)) } else { ("take", counting.take(word)) };
        let said = match came {
            Err(number) => format!("refused {number}"),
            Ok(said) => said.number().map_or(String::from("ok"), |number| format!("bad {number}")),
        };
        counting.above.push(format!("{name} {said}"));
    }
    Some(counting.foot())
}

/// The lines of a sheet or of an answer to calls above the foot, and the foot.
pub fn parted(printed: &[u8]) -> (&[u8], &[u8]) {
    let mut above = 0;
    for line in printed.split_inclusive(|&byte| byte == b'\n') {
        if line.starts_with(b"met ") || line.starts_with(b"total ") {
            break;
        }
        above += line.len();
    }
    printed.split_at(above)
}

/// What is wrong with what is printed, if it has another foot than this, or one where there must be none, or other lines above it.
pub fn fault(printed: &[u8], foot: Option<&Foot>) -> Option<&'static str> {
    let (above, lines) = parted(printed);
    if lines != foot.map_or("", |foot| &foot.lines).as_bytes() {
        return Some("the foot is not the model's");
    }
    let is_above = foot.is_none_or(|foot| ends_with(above, &foot.above));
    (!is_above).then_some("an answer is not the model's")
}

/// Whether what is printed ends with these lines, the rows that a take touches left out.
fn ends_with(printed: &[u8], lines: &[String]) -> bool {
    let printed = String::from_utf8_lossy(printed);
    let mut last = printed.lines().rev().map(|line| line.split_once(" touched ").map_or(line, |(said, _)| said));
    lines.iter().rev().all(|line| last.next() == Some(line))
}

/// What the feet of many cases show.
#[derive(Debug, Default)]
pub struct Tally {
    pub feet: u64,
    pub two_branches: u64,
    pub bad_adds: u64,
    pub never_met: u64,
}

impl Tally {
    /// Counts a case by its foot.
    pub fn count(&mut self, foot: Option<&Foot>) {
        let Some(Foot { shown, .. }) = foot else {
            return;
        };
        self.feet += 1;
        self.two_branches += u64::from(shown.two_branches);
        self.bad_adds += u64::from(shown.bad_adds);
        self.never_met += u64::from(shown.never_met);
    }
}

impl fmt::Display for Tally {
    fn fmt(&self, out: &mut fmt::Formatter<'_>) -> fmt::Result {
        let Tally { feet, two_branches, bad_adds, never_met } = self;
        write!(out, "{feet:8} with totals: in {two_branches} two branches have a letter at one tick, ")?;
        write!(out, "in {bad_adds} a bad tick would add for another monitor, in {never_met} a letter is never met")
    }
}

#[cfg(test)]
mod tests {
    use super::*;
    use crate::grow;
    use crate::random::Random;

    const LINE: &str = "input LOG; input SAW; line -> !LOG || LOG @ SAW; monitor line;";
    /// Two monitors with a wire each. The second letter is met only while a stays 0.
    const TWO: &str = "input a; input b; p -> a || !a & a == past(a), a; q -> b || !b, b; monitor p, q;";
    /// Two ways to the third letter.
    const STARS: &str = "input a; input b; p -> (a* || b & !a*), !a & !b; monitor p;";

    fn case(text: &str, trace: &[u8]) -> Case {
        Case { text: text.as_bytes().to_vec(), trace: trace.to_vec() }
    }

    fn calls(text: &str, calls: &[(u8, u64)]) -> Case {
        let bytes: Vec<Vec<u8>> = calls.iter().map(|(letter, word)| [&[*letter][..], &word.to_le_bytes()].concat()).collect();
        case(text, &bytes.concat())
    }

    /// The counts of a foot, the total last.
    fn counts(foot: Option<Foot>) -> Option<Vec<u64>> {
        let count = |line: &str| line.rsplit(' ').next().and_then(|count| count.parse().ok()).expect("a line ends in a count");
        foot.map(|foot| foot.lines.lines().map(count).collect())
    }

    #[test]
    fn a_foot_has_a_line_for_each_letter_and_the_total() {
        let foot = of_sheet(&case(LINE, &[1, 1, 1, 3, 1, 2, 1, 1, 1, 0])).expect("it is bad at tick 4");
        assert_eq!(foot.lines, "met 0 0 1\nmet 0 1 3\nmet 0 2 2\ntotal 6\n");
        let foot = of_sheet(&case(TWO, &[1, 1, 1, 3])).expect("it is clean");
        assert_eq!(foot.lines, "met 0 0 2\nmet 0 1 0\nmet 0 2 0\nmet 1 0 0\nmet 1 1 1\nmet 1 2 1\ntotal 4\n");
    }

    #[test]
    fn only_refused_sheets_have_no_foot() {
        let counts = |trace: &[u8]| counts(of_sheet(&case(LINE, trace)));
        assert_eq!(counts(&[]), Some(vec![0, 0, 0, 0]));
        assert_eq!(counts(&[1, 1]), Some(vec![0, 1, 0, 1]));
        // behind a bad tick nothing is read
        assert_eq!(counts(&[1, 1, 0, 1]), Some(vec![0, 1, 0, 1]));
        // torn, idle, stray
        assert_eq!([counts(&[1, 1, 1]), counts(&[1, 1, 1, 1]), counts(&[1, 4])], [None, None, None]);
        assert!(of_sheet(&case("input a; p -> a || a; monitor p;", &[])).is_none());
    }

    #[test]
    fn every_answer_to_calls_has_a_foot() {
        let (ok, bad, stray) = ((b'T', 3), (b'T', 1), (b'T', 4));
        let counts = |list: &[(u8, u64)]| counts(of_calls(&calls(TWO, list))).expect("the text is accepted");
        assert_eq!(counts(&[]), [0, 0, 0, 0, 0, 0, 0]);
        assert_eq!(counts(&[ok, (b'L', 3), (b'L', 1), stray, ok]), [2, 0, 0, 2, 0, 0, 4]);
        // the second of two words without b is bad, and all behind it are refused
        assert_eq!(counts(&[bad, bad, ok, ok]), [1, 0, 0, 0, 1, 0, 2]);
        assert!(of_calls(&calls("input a; p -> a || a; monitor p;", &[ok])).is_none());
    }

    /// At most one of three ticks may have wire a; monitor 1 wants wire b.
    const LIMITED: &str = "input a; input b; x -> a; p -> x || !a; q -> b; limit x to 2 in 9; limit x to 1 in 3; monitor p, q;";

    #[test]
    fn the_lines_above_a_foot_are_told() {
        let above = |trace: &[u8]| of_sheet(&case(LIMITED, trace)).map(|foot| foot.above.concat());
        assert_eq!(above(&[1, 3, 1, 2, 0, 1, 3]), Some(String::from("clean 4")));
        assert_eq!(above(&[1, 3, 1, 2, 1, 3]), Some(String::from("2 0000000000000003 bad 33")));
        assert_eq!(above(&[1, 3, 1, 2, 0, 1, 3, 1, 1]), Some(String::from("4 0000000000000001 bad 1")));
        assert_eq!(above(&[1, 3, 1, 2, 0, 1, 3, 1, 2, 0, 1, 3]), Some(String::from("6 0000000000000003 bad 32")));
        assert_eq!(above(&[1, 3, 1, 4]), None);
        let (ok, look, stray) = ((b'T', 3), (b'L', 3), (b'L', 4));
        let above = of_calls(&calls(LIMITED, &[look, ok, look, stray, (b'L', 1), (b'T', 2), ok, look])).expect("it is accepted").above;
        assert_eq!(above, ["look ok", "take ok", "look bad 33", "look refused 15", "look bad 1", "take ok", "take bad 33", "look refused 16"]);
    }

    #[test]
    fn every_wrong_answer_is_found() {
        let case = calls(LIMITED, &[(b'T', 3), (b'L', 3), (b'T', 3)]);
        let right = String::from_utf8(calls::answer(&case)).expect("it is ASCII");
        let is_wrong = |printed: &str| fault(printed.as_bytes(), of_calls(&case).as_ref()).is_some();
        assert!(!is_wrong(&right));
        for (part, other) in [("look bad 33", "look ok"), ("look bad 33", "look bad 32"), ("take bad 33", "take bad 1"), ("look bad 33\n", "")] {
            assert!(is_wrong(&right.replace(part, other)), "{other} for {part}");
        }
    }

    #[test]
    fn a_foot_is_parted_from_the_lines_above() {
        let above = "rows 1 letters 1\n0 0000000000000001 ok\nclean 1\n";
        for foot in ["met 0 0 1\ntotal 1\n", "total 1\n", ""] {
            assert_eq!(parted([above, foot].concat().as_bytes()), (above.as_bytes(), foot.as_bytes()));
        }
    }

    #[test]
    fn every_wrong_foot_is_found() {
        let is_wrong = |trace: &[u8], printed: &str| fault(printed.as_bytes(), of_sheet(&case(LINE, trace)).as_ref()).is_some();
        let right = "clean 1\nmet 0 0 0\nmet 0 1 1\nmet 0 2 0\ntotal 1\n";
        assert!(!is_wrong(&[1, 1], right));
        let wrong = [("1 1", "1 2"), ("total 1", "total 2"), ("met 0 2 0\n", ""), ("total 1\n", ""), ("met 0 0 0\n", "met 0 0 0\nmet 0 0 0\n")];
        for (part, other) in wrong {
            assert!(is_wrong(&[1, 1], &right.replace(part, other)), "{other} for {part}");
        }
        assert!(is_wrong(&[1, 1], "clean 1\n"));
        assert!(is_wrong(&[1, 1], &right.replace("clean 1", "clean 2")));
        assert!(!is_wrong(&[1, 1, 1], "refused 13 1\n"));
        assert!(is_wrong(&[1, 1, 1], &right.replace("clean 1", "refused 13 1")));
    }

    fn shown(text: &str, trace: &[u8]) -> [bool; 3] {
        let Shown { two_branches, bad_adds, never_met } = of_sheet(&case(text, trace)).expect("it has a foot").shown;
        [two_branches, bad_adds, never_met]
    }

    #[test]
    fn what_is_easily_missed_is_shown() {
        // the stars are left at once, in two ways; or one of them is, behind a round
        assert_eq!(shown(STARS, &[0]), [true, false, true]);
        assert_eq!(shown(STARS, &[1, 1, 1, 0]), [false, false, true]);
        assert_eq!(shown(STARS, &[1, 1, 1, 0, 1, 2, 1, 0]), [false, false, false]);
        assert_eq!(shown(STARS, &[1, 1, 1, 2]), [false, false, true]);
        // bad for the second alone, for the first alone, for both
        assert_eq!(shown(TWO, &[1, 1, 0]), [false, true, true]);
        assert_eq!(shown(TWO, &[1, 2, 0]), [false, true, true]);
        assert_eq!(shown(TWO, &[0, 0]), [false, false, true]);
        assert_eq!(shown(LINE, &[1, 1, 1, 0]), [false, false, true]);
        assert_eq!(shown(LINE, &[]), [false; 3]);
    }

    /// What `second` prints of grown cases has the model's foot.
    #[test]
    fn second_has_the_same_feet() {
        let mut feet = 0;
        for seed in 0..5000 {
            let case = grow::case(&mut Random::new(seed));
            let foot = of_sheet(&case);
            assert_eq!(fault(&second::sheet(&case.text, &case.trace), foot.as_ref()), None, "seed {seed}");
            feet += u64::from(foot.is_some());
            let case = calls::case(&mut Random::new(seed));
            assert_eq!(fault(&calls::answer(&case), of_calls(&case).as_ref()), None, "calls of seed {seed}");
        }
        assert!(feet > 1000, "{feet}");
    }

    /// Each in at least one of ten cases with a foot.
    #[test]
    fn totals_are_often_easily_missed() {
        let (mut sheets, mut answers) = (Tally::default(), Tally::default());
        for seed in 0..10_000 {
            sheets.count(of_sheet(&grow::case(&mut Random::new(seed))).as_ref());
            answers.count(of_calls(&calls::case(&mut Random::new(seed))).as_ref());
        }
        for Tally { feet, two_branches, bad_adds, never_met } in [sheets, answers] {
            assert!([two_branches, bad_adds, never_met].iter().all(|n| 10 * n > feet), "{feet} {two_branches} {bad_adds} {never_met}");
        }
    }
}

//! Texts whose threads are often started while they run, or just not: threads of one letter, of several and of as many as it takes, threads inside threads, `@`
//! below a star, left operands that end in stars, productions with an `@` that stand twice, and several monitors. And what a case shows of its threads:
//! how often one is handed over, and whether a bad tick is one for a busy thread alone.

use crate::compare::words;
use crate::model::{Model, Said};
use crate::opened::{self, Opened};
use crate::random::Random;
use crate::Case;
use std::fmt;

/// Wires a and b steer the monitor itself, the others are for its threads.
const DECLARED: &str = "input a;\ninput b;\ninput c;\ninput d;\ninput e;\ninput F[1:0];\ninternal s[1:0] = 0;\n";
const THREAD_WIRES: &[&str] = &["c", "d", "e"];

/// The deepest threads inside threads.
const DEEPEST: usize = 3;

/// What may stand beside a letter's wire. A store test or a write makes it count which branches fit.
const BESIDE: &[&str] = &[" & F == past(F)", " & F[0]", " & s == 0", " & F == s", " { s <- F; }", " { s <- 0; }", " & !F[1] { s <- F; }"];

/// Ends of left operands, of any number of ticks with wire b: a star alone, stars in a row, two of which one is taken, and one inside another.
const ROUNDS: &[&str] =
    &["b*", "b*", "b*", "(b & F[0])*, (b & !F[0])*", "((b & F[0])* || (b & !F[0])*)", "((b & F[0])* || (b & !F[0])*)", "((b & F[0])*, b & !F[0])*"];

/// A text that is accepted.
pub fn text(random: &mut Random) -> String {
    let mut text = String::from(DECLARED);
    for start in ["t", "u"] {
        text += &format!("{start} -> {};\n", starting(random));
    }
    for line in ["p", "q"] {
        text += &format!("{line} -> {};\n", line_of(random));
    }
    text + &format!("monitor {};\n", random.pick(&["p", "p", "p", "t", "p, q", "p, p", "q, t, p"]))
}

fn beside(random: &mut Random) -> &'static str {
    if random.once_in(8) {
        random.pick::<&str>(BESIDE)
    } else {
        ""
    }
}

/// A letter that half of the words meet, or nearly.
fn letter(random: &mut Random) -> String {
    let bang = if random.once_in(5) { "!" } else { "" };
    format!("{bang}{}{}", random.pick(THREAD_WIRES), beside(random))
}

/// Two letters of which no word meets both.
fn letters_apart(random: &mut Random) -> (String, String) {
    let wire = random.pick(THREAD_WIRES);
    let (one, other) = (format!("{wire}{}", beside(random)), format!("!{wire}{}", beside(random)));
    if random.once_in(2) {
        (one, other)
    } else {
        (other, one)
    }
}

/// A thread, with others inside it that go at most so deep.
fn thread(random: &mut Random, depth: usize) -> String {
    let (x, y) = letters_apart(random);
    let one = letter(random);
    if depth == 0 || random.once_in(2) {
        return match random.below(6) {
            0 => one,
            1 => format!("{one}, {}", letter(random)),
            2 => format!("{one}, {}, {}", letter(random), letter(random)),
            3 | 4 => format!("({x})*, {y}"),
            _ => format!("{x}, {one} || {y}"),
        };
    }
    let inner = thread(random, depth - 1);
    match random.below(9) {
        0 => format!("{one} @ ({inner})"),
        1 => format!("{one} @ ({inner}), {}", letter(random)),
        2 => format!("{one}, {} @ ({inner})", letter(random)),
        3 => format!("({x} @ ({inner}))*, {y}"),
        4 => format!("{x} @ ({inner}) || {y}"),
        5 => format!("({x})*, {y} @ ({inner})"),
        6 => format!("({one}, ({x})*) @ ({inner}), {y}"),
        7 => format!("({one} @ ({inner})) @ ({})", thread(random, depth - 1)),
        _ => format!("{one} @ ({inner}), {} @ ({})", letter(random), thread(random, depth - 1)),
    }
}

/// A part that begins with wire a and starts a thread.
fn starting(random: &mut Random) -> String {
    let thread = thread_of_any_depth(random);
    let rounds = random.pick(ROUNDS);
    match random.below(11) {
        0..=2 => format!("a @ ({thread})"),
        3 | 4 => format!("(a, {rounds}) @ ({thread}), !b"),
        5 => format!("(a, {rounds}) @ ({thread}), !b @ ({})", thread_of_any_depth(random)),
        6 => format!("((a & !b)*, a & b) @ ({thread})"),
        7 => format!("(a @ ({thread})) @ ({})", thread_of_any_depth(random)),
        8 => format!("a @ ({thread}), {}", letter(random)),
        9 => format!("a @ ({thread}), {}, {}", letter(random), letter(random)),
        _ => format!("(a, (b @ ({}))*) @ ({thread}), !b", thread_of_any_depth(random)),
    }
}

fn thread_of_any_depth(random: &mut Random) -> String {
    let depth = random.below(DEEPEST + 1);
    thread(random, depth)
}

/// A monitor's expression, of the parts that start threads. In the last ones it is open at many ticks whether a thread that runs is started.
fn line_of(random: &mut Random) -> String {
    let (x, y) = letters_apart(random);
    let rounds = random.pick(ROUNDS);
    match random.below(16) {
        0..=2 => String::from("t || !a"),
        3 | 4 => String::from("(t)*, !a"),
        5 | 6 => String::from("t, t || !a"),
        7 => String::from("t, u || !a"),
        8 => String::from("(t, u)*, !a"),
        9 => format!("t || !a @ ({})", thread_of_any_depth(random)),
        10 => format!("t, {} || !a", letter(random)),
        11 => String::from("t, t"),
        12 | 13 => format!("(a & !b, {rounds}) @ ({}) || !a & !b", thread_of_any_depth(random)),
        _ => format!("(a & !b, {rounds}) @ (({x})*, {y}) || !a & !b"),
    }
}

/// What a case shows of its threads.
#[derive(Clone, Copy, Debug, PartialEq, Eq)]
pub struct Shown {
    /// What its last word came to.
    pub end: Said,
    /// How many starts had their first letter right behind the last letter of another start of the same thread.
    pub handed_over: u64,
}

/// An accepted text, opened, if it has a thread.
pub fn opened(text: &[u8]) -> Option<Opened> {
    if !text.contains(&b'@') {
        return None;
    }
    let opened = opened::open(std::str::from_utf8(text).expect("an accepted text is ASCII"));
    opened.has_threads().then_some(opened)
}

/// What a case with a trace shows, if its text is accepted and has a thread.
pub fn shown(case: &Case) -> Option<Shown> {
    let program = second::open(&case.text).ok()?;
    let opened = opened(&case.text)?;
    let mut model = Model::new(&opened);
    let is_stray = |word: &u64| word.checked_shr(program.wires()).unwrap_or(0) != 0;
    let words = words(&case.trace).into_iter().take_while(|word| !is_stray(word));
    let end = words.map(|word| model.take(word)).find(|&said| said != Said::Ok).unwrap_or(Said::Ok);
    Some(Shown { end, handed_over: model.handed_over() })
}

/// What many cases with traces show of their threads.
#[derive(Debug, Default)]
pub struct Tally {
    pub texts: u64,
    pub clean: u64,
    pub bad: u64,
    /// Of the bad ones, those that are bad for a busy thread alone.
    pub busy: u64,
    pub handed_over: u64,
}

impl Tally {
    /// Counts a case, whose sheet is of this kind.
    pub fn count(&mut self, case: &Case, kind: &str) {
        let Some(shown) = shown(case) else {
            return;
        };
        self.texts += 1;
        self.clean += u64::from(kind == "clean");
        self.bad += u64::from(kind == "bad");
        self.busy += u64::from(matches!(shown.end, Said::Busy(_)));
        self.handed_over += shown.handed_over;
    }
}

impl fmt::Display for Tally {
    fn fmt(&self, out: &mut fmt::Formatter<'_>) -> fmt::Result {
        let Tally { texts, clean, bad, busy, handed_over } = self;
        writeln!(out, "{texts:8} accepted with a thread: {clean} clean, {bad} bad, {busy} of these for a busy thread alone")?;
        write!(out, "{handed_over:8} starts right behind another of the same thread")
    }
}

#[cfg(test)]
mod tests {
    use super::*;
    use crate::grow;

    #[test]
    fn every_text_is_accepted_and_has_a_thread() {
        for seed in 0..5000 {
            let text = text(&mut Random::new(seed));
            assert!(second::open(text.as_bytes()).is_ok(), "{text}");
            assert!(opened(text.as_bytes()).is_some(), "{text}");
        }
    }

    /// All forms are there: threads inside threads, `@` below a star, a left operand that ends in stars, a production that stands twice, several monitors.
    #[test]
    fn texts_have_all_forms() {
        let texts: Vec<String> = (0..1000).map(|seed| text(&mut Random::new(seed))).collect();
        let inside = ["a @ (c)", "a @ ((c)*, !c)", "@ (c @ (", "@ ((c @ ("];
        let lines = ["(a, b*) @ (", "(t)*, !a", "t, t || !a", "monitor p, q;", "monitor p, p;", "monitor q, t, p;"];
        for form in inside.iter().chain(&lines) {
            assert!(texts.iter().any(|text| text.contains(*form)), "{form}");
        }
        for form in ROUNDS.iter().flat_map(|rounds| ["a", "a & !b"].map(|first| format!("({first}, {rounds}) @ ("))) {
            assert!(texts.iter().any(|text| text.contains(&form)), "{form}");
        }
    }

    fn case(body: &str, words: &[u64]) -> Case {
        let text = format!("input a; input b; input c; input d; p -> {body}; monitor p;");
        let before = [0].into_iter().chain(words.iter().copied());
        let trace = before.zip(words).flat_map(|(before, &word)| crate::compare::record(before, word)).collect();
        Case { text: text.into_bytes(), trace }
    }

    #[test]
    fn the_last_word_and_starts_handed_over_are_shown() {
        let shown = |body: &str, words: &[u64]| shown(&case(body, words)).map(|shown| (shown.end, shown.handed_over));
        assert_eq!(shown("a @ b || !a", &[1, 3, 3, 2, 1, 2]), Some((Said::Ok, 2)));
        assert_eq!(shown("a @ (b, c) || !a", &[1, 2, 5, 2, 4]), Some((Said::Ok, 1)));
        assert_eq!(shown("a @ (b, c) || !a", &[1, 3, 7, 0]), Some((Said::Busy(0), 0)));
        assert_eq!(shown("a @ (b, c) || !a", &[1, 3, 3]), Some((Said::Bad(0), 0)));
        assert_eq!(shown("a @ (b, c) || !a", &[1, 3, 16]), Some((Said::Ok, 0)));
        assert_eq!(shown("a || !a", &[1]), None);
        assert_eq!(shown("a @ b || a", &[1]), None);
    }

    /// Of the grown cases many have a thread; of those many end where it is busy, and in many it is handed over.
    #[test]
    fn threads_are_often_busy() {
        let mut tally = Tally::default();
        for case in (0..10_000).map(|seed| grow::case(&mut Random::new(seed))) {
            tally.count(&case, &grow::kind(&case));
        }
        assert!(tally.texts > 1500 && tally.clean > 500 && tally.bad > 500, "{tally:?}");
        assert!(tally.busy > 400 && tally.handed_over > 10_000, "{tally:?}");
    }
}

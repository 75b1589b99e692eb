//! Limits by the model (docs/REFERENCE.md, F29 to F31): for each limit the sums over the ticks from tick 0 on, whose differences are the ticks that count in a
//! window. And what a case shows of its limits: where it is beyond one, and where a window of one tick more or fewer would be told from the right one.

use crate::model::{Model, Said};
use crate::opened::Limit;
use crate::Case;
use std::fmt;

/// The number that names limit 0 in an answer.
pub const FIRST: usize = 32;

/// The most limits of a text.
pub const MOST: usize = 8;

/// A trace with so many ok ticks is long.
const LONG: usize = 3000;

/// For each limit how many ticks counted among the first 0, 1, 2 .. of them.
pub struct Counted<'o> {
    limits: &'o [Limit],
    sums: Vec<Vec<usize>>,
}

impl<'o> Counted<'o> {
    pub fn new(limits: &'o [Limit]) -> Self {
        Counted { limits, sums: vec![vec![0]; limits.len()] }
    }

    /// How many of the last ticks, at most so many, counted for a limit.
    fn last(&self, number: usize, ticks: usize) -> usize {
        let sums = &self.sums[number];
        let all = sums.len() - 1;
        sums[all] - sums[all.saturating_sub(ticks)]
    }

    /// Whether the next tick, with these letters met, would be beyond a limit if its window had this length.
    fn would_be(&self, number: usize, window: usize, letters: &[usize]) -> bool {
        let limit = &self.limits[number];
        self.last(number, window - 1) + usize::from(limit.is_met(letters)) > limit.most
    }

    /// The limits that the next tick is beyond with these letters met.
    pub fn beyond<'a>(&'a self, letters: &'a [usize]) -> impl Iterator<Item = usize> + 'a {
        (0..self.limits.len()).filter(|&number| self.would_be(number, self.limits[number].window, letters))
    }

    /// Whether the next tick, which is beyond a limit with these letters met, would not be if its window had one tick fewer.
    pub fn is_just_beyond(&self, number: usize, letters: &[usize]) -> bool {
        let window = self.limits[number].window;
        window > 1 && !self.would_be(number, window - 1, letters)
    }

    /// Adds a tick at which these letters were met.
    pub fn add(&mut self, letters: &[usize]) {
        for (limit, sums) in self.limits.iter().zip(&mut self.sums) {
            sums.push(sums[sums.len() - 1] + usize::from(limit.is_met(letters)));
        }
    }
}

/// What a case shows of the limits of its text.
#[derive(Clone, Copy, Debug, Default, PartialEq, Eq)]
pub struct Shown {
    pub limits: usize,
    pub ticks: usize,
    /// Windows that the ok ticks fill at least twice, and of these the ones of a thousand ticks or more.
    pub rounds: usize,
    pub long_rounds: usize,
    /// At some ok tick two letters count for one limit.
    pub two_letters: bool,
    /// Some ok tick would be beyond a limit with one tick more in its window.
    pub just_within: bool,
    /// The limit that the bad tick names.
    pub beyond: Option<usize>,
    /// That tick would be ok with one tick fewer in the window, or it is beyond several limits.
    pub just_beyond: bool,
    pub several: bool,
    /// The bad tick names a monitor, and is beyond a limit by the letters of other monitors.
    pub with_monitor: bool,
    /// Looks at words beyond a limit, and of these the ones behind which a take was ok.
    pub looks: u64,
    pub went_on: u64,
    /// Of the looks, those not counted yet as gone on from.
    waiting: u64,
}

impl Shown {
    pub fn new(limits: &[Limit]) -> Self {
        Shown { limits: limits.len(), ..Shown::default() }
    }

    /// Counts a look.
    pub fn look(&mut self, said: Said) {
        let is_beyond = u64::from(matches!(said, Said::Beyond(_)));
        self.looks += is_beyond;
        self.waiting += is_beyond;
    }

    /// Counts a take that was ok, by the model behind it.
    pub fn ok(&mut self, model: &Model) {
        let (counted, letters) = (model.counted(), model.letters());
        let two = |limit: &Limit| letters.iter().filter(|&&letter| limit.counts[letter]).count() > 1;
        let brims = |number: usize| counted.last(number, counted.limits[number].window + 1) > counted.limits[number].most;
        self.ticks += 1;
        self.went_on += std::mem::take(&mut self.waiting);
        self.two_letters |= counted.limits.iter().any(two);
        self.just_within |= (0..self.limits).any(brims);
    }

    /// Counts a take of a bad word, by the model before it.
    pub fn bad(&mut self, model: &Model, word: u64, said: Said) {
        let (counted, letters) = (model.counted(), model.met(word));
        let beyond = counted.beyond(&letters).count();
        if let Said::Beyond(number) = said {
            self.beyond = Some(number);
            self.just_beyond = counted.is_just_beyond(number, &letters);
            self.several = beyond > 1;
        } else {
            self.with_monitor = beyond > 0;
        }
    }

    /// Counts the windows, at the end.
    pub fn close(&mut self, limits: &[Limit]) {
        let rounds = |limit: &&Limit| self.ticks >= 2 * limit.window;
        self.rounds = limits.iter().filter(rounds).count();
        self.long_rounds = limits.iter().filter(rounds).filter(|limit| limit.window >= 1000).count();
    }
}

/// What many cases show of their limits.
#[derive(Debug, Default)]
pub struct Tally {
    /// Texts refused for a ninth limit.
    pub ninth: u64,
    /// Cases with a limit that are clean, or bad; refused words and records are in neither.
    pub texts: u64,
    pub beyond: [u64; MOST],
    pub just_beyond: u64,
    pub several: u64,
    pub with_monitor: u64,
    pub two_letters: u64,
    pub just_within: u64,
    pub rounds: u64,
    pub long_rounds: u64,
    pub long: u64,
    pub looks: u64,
    pub went_on: u64,
}

impl Tally {
    /// Counts a case by what it shows, if it is clean or bad.
    pub fn count(&mut self, case: &Case, shown: Option<&Shown>) {
        self.ninth += u64::from(is_ninth(&case.text));
        let Some(shown) = shown.filter(|shown| shown.limits > 0) else {
            return;
        };
        self.texts += 1;
        if let Some(number) = shown.beyond {
            self.beyond[number] += 1;
        }
        self.just_beyond += u64::from(shown.just_beyond);
        self.several += u64::from(shown.several);
        self.with_monitor += u64::from(shown.with_monitor);
        self.two_letters += u64::from(shown.two_letters);
        self.just_within += u64::from(shown.just_within);
        self.rounds += shown.rounds as u64;
        self.long_rounds += shown.long_rounds as u64;
        self.long += u64::from(shown.ticks >= LONG);
        self.looks += shown.looks;
        self.went_on += shown.went_on;
    }
}

/// Whether a text is refused for a limit too many.
fn is_ninth(text: &[u8]) -> bool {
    if text.windows(5).filter(|word| word == b"limit").count() <= MOST {
        return false;
    }
    match second::open(text) {
        Err(second::Refusal { reason: second::Reason::Crowded, place: second::Place::Byte(byte) }) => text[byte..].starts_with(b"limit"),
        _ => false,
    }
}

impl fmt::Display for Tally {
    fn fmt(&self, out: &mut fmt::Formatter<'_>) -> fmt::Result {
        let Tally { ninth, texts, just_beyond, several, with_monitor, two_letters, just_within, rounds, long_rounds, long, .. } = self;
        let numbers: Vec<String> = self.beyond.iter().map(u64::to_string).collect();
        let bad: u64 = self.beyond.iter().sum();
        writeln!(out, "{ninth:8} refused for a ninth limit")?;
        write!(out, "{texts:8} with totals and a limit: {bad} bad by limit 0 to {}: {}; ", MOST - 1, numbers.join(" "))?;
        writeln!(out, "{with_monitor} bad for a monitor and beyond a limit too")?;
        write!(out, "{just_beyond:8} bad by a limit for the first tick of its window, {several} by several limits; ")?;
        writeln!(out, "in {just_within} a tick is ok as one has just left a window")?;
        write!(out, "{rounds:8} windows gone round twice, {long_rounds} of them of 1,000 ticks or more; {long} traces of {LONG} ticks or more; ")?;
        write!(out, "in {two_letters} two letters count at one tick")?;
        if self.looks > 0 {
            write!(out, "\n{:8} looks bad by a limit; behind {} of them a take was ok", self.looks, self.went_on)?;
        }
        Ok(())
    }
}

#[cfg(test)]
mod tests {
    use super::*;

    /// A limit of letter 0 among two.
    fn limit(most: usize, window: usize) -> Limit {
        Limit { most, window, counts: vec![true, false] }
    }

    /// The ticks, told by the letter met there, that are beyond a limit; none of them counts.
    fn beyond(most: usize, window: usize, ticks: &[usize]) -> Vec<usize> {
        let limits = [limit(most, window)];
        let mut counted = Counted::new(&limits);
        let mut found = Vec::new();
        for (tick, &letter) in ticks.iter().enumerate() {
            if counted.beyond(&[letter]).next().is_some() {
                found.push(tick);
            } else {
                counted.add(&[letter]);
            }
        }
        found
    }

    #[test]
    fn a_window_is_a_tick_and_those_before_it() {
        assert_eq!(beyond(1, 3, &[0, 1, 0]), [2]);
        assert_eq!(beyond(1, 3, &[0, 1, 1, 0, 1, 0]), [5]);
        assert_eq!(beyond(0, 1, &[1, 0, 1]), [1]);
        assert_eq!(beyond(0, 5, &[1, 1, 0]), [2]);
        assert_eq!(beyond(2, 3, &[0, 0, 0]), [2]);
        assert_eq!(beyond(2, 1024, &[0, 0, 1, 0]), [3]);
    }

    #[test]
    fn a_window_is_left_after_its_length() {
        for window in [2, 64, 65, 1023, 1024] {
            let ticks = |apart: usize| [vec![0], vec![1; apart - 1], vec![0]].concat();
            assert_eq!(beyond(1, window, &ticks(window)), []);
            assert_eq!(beyond(1, window, &ticks(window - 1)), [window - 1]);
        }
    }

    /// What the words of a trace show, up to a bad one, with looks at these words before the last.
    fn shown(text: &str, words: &[u64], looks: &[u64]) -> Shown {
        let opened = crate::opened::open(text);
        let (mut model, mut shown) = (Model::new(&opened), Shown::new(&opened.limits));
        for (tick, &word) in words.iter().enumerate() {
            if tick + 1 == words.len() {
                looks.iter().for_each(|&word| shown.look(model.look(word)));
            }
            match model.take(word) {
                Said::Ok => shown.ok(&model),
                said => shown.bad(&model, word, said),
            }
        }
        shown.close(&opened.limits);
        shown
    }

    #[test]
    fn what_is_easily_missed_is_shown() {
        let text = "input a; input b; x -> a; p -> x || !a; q -> b; limit x to 1 in 2; limit x to 1 in 3; monitor p, q;";
        let none = Shown { limits: 2, ..Shown::default() };
        assert_eq!(shown(text, &[2], &[]), Shown { ticks: 1, ..none });
        assert_eq!(shown(text, &[3, 2, 2, 3, 2, 2], &[3]), Shown { ticks: 6, rounds: 2, just_within: true, looks: 1, went_on: 1, ..none });
        assert_eq!(shown(text, &[3, 3], &[3, 2]), Shown { ticks: 1, beyond: Some(0), just_beyond: true, several: true, looks: 1, waiting: 1, ..none });
        // limit 0 would let the third tick be, limit 1 does not
        assert_eq!(shown(text, &[3, 2, 3], &[]), Shown { ticks: 2, beyond: Some(1), just_beyond: true, ..none });
        assert_eq!(shown(text, &[3, 1], &[]), Shown { ticks: 1, with_monitor: true, ..none });
        assert_eq!(shown(text, &[3, 0], &[]), Shown { ticks: 1, ..none });
        let both = "input a; x -> a; y -> x; limit x to 2 in 1000; monitor x, y;";
        let shown = shown(both, &[1, 1], &[]);
        assert_eq!(shown, Shown { limits: 1, ticks: 2, two_letters: true, ..Shown::default() });
    }

    #[test]
    fn cases_are_counted_by_what_they_show() {
        let case = |text: &str| Case { text: text.as_bytes().to_vec(), trace: Vec::new() };
        let mut tally = Tally::default();
        let limits = |count: usize| format!("input a; x -> a; {} monitor x;", "limit x to 1 in 2; ".repeat(count));
        tally.count(&case(&limits(9)), None);
        tally.count(&case(&limits(8)), Some(&Shown { limits: 8, ticks: 3000, beyond: Some(7), looks: 5, ..Shown::default() }));
        tally.count(&case(&limits(0)), Some(&Shown::default()));
        assert_eq!((tally.ninth, tally.texts, tally.beyond, tally.long, tally.looks), (1, 1, [0, 0, 0, 0, 0, 0, 0, 1], 1, 5));
    }

    /// Two letters of one limit are one tick, and every limit is asked.
    #[test]
    fn a_tick_counts_once_for_each_limit() {
        let both = |most, window| Limit { most, window, counts: vec![true, true] };
        let limits = [both(1, 2), limit(0, 1), both(0, 4)];
        let counted = Counted::new(&limits);
        assert_eq!(counted.beyond(&[0, 1]).collect::<Vec<_>>(), [1, 2]);
        assert_eq!(counted.beyond(&[1]).collect::<Vec<_>>(), [2]);
        assert_eq!(counted.beyond(&[]).collect::<Vec<_>>(), []);
    }
}

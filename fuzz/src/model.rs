//! A model of the watch, for texts that `second` accepts: it goes over the parts of each monitor, from letter to letter, with what has to come behind each
//! letter that was met. It has nothing of `second`, and says more of a bad word: whether every letter that is required is met, so that the word is bad
//! only because two starts of one thread both require one. It also tells the rows that a tick touches (rows.rs) and the letters that it meets (totals.rs), and
//! asks the limits of the text where all monitors fit (windows.rs).
//!
//! An accepted text has no forks, so that a word leads on from a letter to one letter at most. There may be several ways to that one, as stars are left and
//! sides of a `||` are taken that have no tick: then several branches (docs/REFERENCE.md, F15) have the same letters. The model takes the first way that it
//! finds, and only counts the others.

use crate::opened::{Letter, Opened, Part};
use crate::rows::{Rows, Touched};
use crate::windows::{self, Counted};
use std::collections::BTreeSet;
use std::rc::Rc;

/// What has to come behind a letter.
enum Rest {
    /// Nothing: a start of this thread is over.
    Over(usize),
    /// The monitor again.
    Again(usize),
    Then(usize, Rc<Rest>),
    /// A start of this thread, beside what follows the `@`.
    Start(usize, Rc<Rest>),
}

impl Rest {
    /// The thread of whose start this is the rest; none for a monitor's own.
    fn thread(&self) -> Option<usize> {
        match self {
            Rest::Over(thread) => Some(*thread),
            Rest::Again(_) => None,
            Rest::Then(_, rest) | Rest::Start(_, rest) => rest.thread(),
        }
    }

    /// The thread of a start that requires no letter any more, though it may start others.
    fn over(&self) -> Option<usize> {
        match self {
            Rest::Over(thread) => Some(*thread),
            Rest::Start(_, rest) => rest.over(),
            Rest::Again(_) | Rest::Then(..) => None,
        }
    }
}

/// A letter that was met, and what has to come behind it.
struct Met {
    letter: usize,
    rest: Rc<Rest>,
}

/// What a word comes to. Bad names the lowest monitor that does not fit, Beyond the lowest limit where all fit.
#[derive(Clone, Copy, Debug, PartialEq, Eq)]
pub enum Said {
    Ok,
    Bad(usize),
    /// Bad, though all letters are met that are required: a thread is busy.
    Busy(usize),
    /// All monitors fit, and this is the lowest limit that the tick is beyond.
    Beyond(usize),
}

impl Said {
    /// The number that an answer names, if it is bad.
    pub fn number(self) -> Option<usize> {
        match self {
            Said::Ok => None,
            Said::Bad(monitor) | Said::Busy(monitor) => Some(monitor),
            Said::Beyond(limit) => Some(windows::FIRST + limit),
        }
    }
}

/// A watch at work. It knows no refusals: they are left to who hands the words over.
pub struct Model<'o> {
    opened: &'o Opened,
    rows: Rows<'o>,
    stores: Vec<u64>,
    before: u64,
    /// The letters met at the last tick, in the order of their numbers; none before tick 0.
    letters: Vec<usize>,
    /// For each monitor what has to come, for itself and for each start.
    rests: Vec<Vec<Rc<Rest>>>,
    handed_over: u64,
    counted: Counted<'o>,
}

impl<'o> Model<'o> {
    pub fn new(opened: &'o Opened) -> Self {
        let rests = opened.monitors.iter().map(|&monitor| vec![Rc::new(Rest::Again(monitor))]).collect();
        let (rows, counted) = (Rows::new(opened), Counted::new(&opened.limits));
        Model { opened, rows, stores: opened.stores.clone(), before: 0, letters: Vec::new(), rests, handed_over: 0, counted }
    }

    /// The ticks that counted for the limits.
    pub fn counted(&self) -> &Counted<'o> {
        &self.counted
    }

    /// How many starts so far had their first letter right behind the last letter of another start of the same thread.
    pub fn handed_over(&self) -> u64 {
        self.handed_over
    }

    /// The rows that the next tick touches: those behind each letter met at the last one, or each monitor's at tick 0.
    pub fn touched(&self) -> Vec<BTreeSet<Touched>> {
        if self.letters.is_empty() {
            return self.opened.monitors.iter().map(|&monitor| self.rows.at_first(monitor)).collect();
        }
        self.letters.iter().map(|&letter| self.rows.behind(letter)).collect()
    }

    /// The letters met at the last tick, of all monitors; none before tick 0.
    pub fn letters(&self) -> &[usize] {
        &self.letters
    }

    /// In how many ways a branch can go over a word that is ok. In each it has the same letters there.
    pub fn ways(&self, word: u64) -> u64 {
        let step = Step { model: self, word };
        self.rests.iter().flatten().fold(1, |ways, rest| ways.saturating_mul(step.ways(rest)))
    }

    /// How many monitors fit a word behind those so far.
    pub fn fitting(&self, word: u64) -> usize {
        self.cross(word).iter().filter(|met| fits(met)).count()
    }

    /// The letters that a word meets in the monitors that fit it.
    pub fn met(&self, word: u64) -> Vec<usize> {
        letters(&self.cross(word))
    }

    /// Whether a word is beyond a limit, all monitors fitting it, and would not be if the window of that limit had one tick fewer.
    pub fn is_just_beyond(&self, word: u64) -> bool {
        matches!(self.look(word), Said::Beyond(number) if self.counted.is_just_beyond(number, &self.met(word)))
    }

    /// What a take of the word would come to.
    pub fn look(&self, word: u64) -> Said {
        self.said(&self.cross(word))
    }

    /// Takes a word, and moves on if it is ok.
    pub fn take(&mut self, word: u64) -> Said {
        let crossed = self.cross(word);
        let said = self.said(&crossed);
        if said == Said::Ok {
            self.move_on(word, &crossed.into_iter().flatten().collect::<Vec<_>>());
        }
        said
    }

    fn move_on(&mut self, word: u64, met: &[Vec<Met>]) {
        for (before, after) in self.rests.iter_mut().zip(met) {
            self.handed_over += handed_over(before, after);
            *before = after.iter().map(|met| met.rest.clone()).collect();
        }
        self.letters = met.iter().flatten().map(|met| met.letter).collect();
        self.letters.sort_unstable();
        self.counted.add(&self.letters);
        self.write(word);
        self.before = word;
    }

    /// Carries out the writes of the letters met, in the order of their numbers.
    fn write(&mut self, word: u64) {
        for &letter in &self.letters {
            for (store, value) in &self.opened.letters[letter].writes {
                self.stores[*store] = value.of(word);
            }
        }
    }

    /// What a word comes to that meets these letters. Limits are asked only if all monitors fit.
    fn said(&self, crossed: &[Option<Vec<Met>>]) -> Said {
        match crossed.iter().position(|met| !fits(met)) {
            None => self.counted.beyond(&letters(crossed)).next().map_or(Said::Ok, Said::Beyond),
            Some(monitor) if crossed.iter().all(Option::is_some) => Said::Busy(monitor),
            Some(monitor) => Said::Bad(monitor),
        }
    }

    /// The letters that a word meets in each monitor, or none where one is missing that is required.
    fn cross(&self, word: u64) -> Vec<Option<Vec<Met>>> {
        let step = Step { model: self, word };
        let monitors = self.rests.iter().map(|rests| {
            let mut met = Vec::new();
            rests.iter().all(|rest| step.go(rest, &mut met)).then_some(met)
        });
        monitors.collect()
    }
}

/// Whether a monitor with these letters fits.
fn fits(met: &Option<Vec<Met>>) -> bool {
    met.as_ref().is_some_and(|met| !is_busy(met))
}

/// The letters of the monitors that fit.
fn letters(crossed: &[Option<Vec<Met>>]) -> Vec<usize> {
    crossed.iter().filter(|met| fits(met)).flatten().flatten().map(|met| met.letter).collect()
}

/// Whether two of the letters are of one thread, and so of two starts of it.
fn is_busy(met: &[Met]) -> bool {
    let mut threads: Vec<usize> = met.iter().filter_map(|met| met.rest.thread()).collect();
    threads.sort_unstable();
    threads.windows(2).any(|two| two[0] == two[1])
}

/// How many threads have a letter though a start of theirs is over.
fn handed_over(before: &[Rc<Rest>], after: &[Met]) -> u64 {
    let over: Vec<usize> = before.iter().filter_map(|rest| rest.over()).collect();
    after.iter().filter_map(|met| met.rest.thread()).filter(|thread| over.contains(thread)).count() as u64
}

/// A tick with a word.
struct Step<'m, 'o> {
    model: &'m Model<'o>,
    word: u64,
}

impl Step<'_, '_> {
    fn meets(&self, letter: &Letter) -> bool {
        let wires = (self.word ^ letter.want) & letter.look == 0 && (self.word ^ self.model.before) & letter.held == 0;
        wires && letter.tests.iter().all(|(store, value)| self.model.stores[*store] == value.of(self.word))
    }

    /// Whether what has to come can go on at this tick; adds the letters it meets.
    fn go(&self, rest: &Rc<Rest>, met: &mut Vec<Met>) -> bool {
        match &**rest {
            Rest::Over(_) => true,
            Rest::Again(monitor) => self.enter(*monitor, rest, met),
            Rest::Then(part, then) => self.enter(*part, then, met) || self.model.opened.hollow[*part] > 0 && self.go(then, met),
            Rest::Start(thread, then) => self.enter(*thread, &Rc::new(Rest::Over(*thread)), met) && self.go(then, met),
        }
    }

    /// Whether a part can have this tick as its first; adds the letter that it meets.
    fn enter(&self, part: usize, then: &Rc<Rest>, met: &mut Vec<Met>) -> bool {
        let opened = self.model.opened;
        match opened.parts[part] {
            Part::Letter(letter) => {
                let meets = self.meets(&opened.letters[letter]);
                if meets {
                    met.push(Met { letter, rest: then.clone() });
                }
                meets
            }
            Part::Sequence(e, f) => self.enter(e, &Rc::new(Rest::Then(f, then.clone())), met) || opened.hollow[e] > 0 && self.enter(f, then, met),
            Part::Choice(e, f) => self.enter(e, then, met) || self.enter(f, then, met),
            Part::Star(body) => self.enter(body, &Rc::new(Rest::Then(part, then.clone())), met),
            Part::Pipe(left, thread) => self.enter(left, &Rc::new(Rest::Start(thread, then.clone())), met),
        }
    }

    /// In how many ways what has to come can go on at this tick.
    fn ways(&self, rest: &Rest) -> u64 {
        match rest {
            Rest::Over(_) => 1,
            Rest::Again(monitor) => self.ways_into(*monitor),
            Rest::Then(part, then) => self.ways_into(*part).saturating_add(self.ways_by(*part, || self.ways(then))),
            Rest::Start(thread, then) => self.ways_into(*thread).saturating_mul(self.ways(then)),
        }
    }

    /// In how many ways a part can have this tick as its first.
    fn ways_into(&self, part: usize) -> u64 {
        match self.model.opened.parts[part] {
            Part::Letter(letter) => u64::from(self.meets(&self.model.opened.letters[letter])),
            Part::Sequence(e, f) => self.ways_into(e).saturating_add(self.ways_by(e, || self.ways_into(f))),
            Part::Choice(e, f) => self.ways_into(e).saturating_add(self.ways_into(f)),
            Part::Star(body) | Part::Pipe(body, _) => self.ways_into(body),
        }
    }

    /// The ways of what follows a part that takes no tick.
    fn ways_by(&self, part: usize, following: impl Fn() -> u64) -> u64 {
        match self.model.opened.hollow[part] {
            0 => 0,
            through => through.saturating_mul(following()),
        }
    }
}

#[cfg(test)]
mod tests {
    use super::*;
    use crate::compare::words;
    use crate::opened::open;
    use crate::random::Random;
    use crate::{grow, threads};
    use second::{Answer, Watch};

    const OK: Said = Said::Ok;
    const BAD: Said = Said::Bad(0);
    const BUSY: Said = Said::Busy(0);

    /// What the last word of a row comes to; those before it are ok.
    fn last(body: &str, words: &[u64]) -> Said {
        let opened = open(&format!("input a; input b; input c; input d; t -> a @ (b, c); p -> {body}; monitor p;"));
        let mut model = Model::new(&opened);
        let (last, before) = words.split_last().expect("there is a word");
        before.iter().for_each(|&word| assert_eq!(model.take(word), OK, "{body}: {word}"));
        model.take(*last)
    }

    /// Rows of words that end at a busy thread or just not, each a reading that is easily missed.
    #[test]
    fn starts_that_meet_and_starts_that_do_not() {
        let rows: &[(&str, &[u64], Said)] = &[
            // two letters at once, one of them missing, and no letter at all
            ("t", &[1, 3, 7], BUSY),
            ("t", &[1, 3, 5], BAD),
            ("t", &[1, 3, 0], BAD),
            ("t || !a", &[1, 2, 5, 2, 4], OK),
            // one letter is over before the next start
            ("a @ b", &[1, 3, 3, 3], OK),
            // copies, and a star around one
            ("t, t || !a", &[1, 3, 6, 4], OK),
            ("(t)*, !a", &[1, 3, 6], BUSY),
            // two starts in the same place
            ("a @ ((b & !c)*, c) || !a", &[1, 3, 2], BUSY),
            ("a @ ((b & !c)*, c) || !a", &[1, 5, 2], OK),
            // an inner thread of two outer starts; an outer start that is over while the inner one runs
            ("a @ (b @ (c, d)) || !a", &[1, 3, 6], OK),
            ("a @ (b @ (c, d)) || !a", &[1, 3, 6, 12], BUSY),
            // a left operand that may go on
            ("(a, b*) @ (c, c, c), !b", &[1, 4, 5, 6], OK),
            ("(a, b*) @ (c, c, c), !b", &[1, 4, 5, 4], BUSY),
            ("(a, ((b & !c)* || (c & !b)*)) @ (d, d), !a & !b & !c", &[1, 8, 9], OK),
        ];
        for (body, words, said) in rows {
            assert_eq!(last(body, words), *said, "{body}: {words:?}");
        }
    }

    #[test]
    fn the_lowest_monitor_is_named_and_a_missing_letter_comes_before_a_busy_thread() {
        let opened = open("input a; input b; t -> a @ (a, a); p -> b || !b; q -> b; monitor p, t, q;");
        let mut model = Model::new(&opened);
        assert_eq!([model.take(3), model.take(3)], [OK, OK]);
        assert_eq!((model.look(3), model.look(1), model.look(2)), (Said::Busy(1), Said::Bad(1), Said::Bad(1)));
    }

    /// Of several limits the lowest is named, a bad monitor before all of them, and a tick that is not taken counts for nothing.
    #[test]
    fn limits_are_asked_behind_all_monitors() {
        let opened = open("input a; input b; x -> a; p -> x || !a; q -> b; limit x to 2 in 1024; limit x to 1 in 2; limit x to 1 in 3; monitor p, q;");
        let mut model = Model::new(&opened);
        assert_eq!([model.take(3), model.take(3), model.take(3)], [OK, Said::Beyond(1), Said::Beyond(1)]);
        assert_eq!([model.look(1), model.look(0)], [Said::Bad(1); 2]);
        assert_eq!([model.take(2), model.look(3), model.look(1), model.take(2), model.take(3)], [OK, Said::Beyond(2), Said::Bad(1), OK, OK]);
        assert_eq!([model.take(2), model.take(2), model.take(2), model.take(3)], [OK, OK, OK, Said::Beyond(0)]);
        assert_eq!([Said::Beyond(1), OK, Said::Bad(1), Said::Busy(2)].map(Said::number), [Some(33), None, Some(1), Some(2)]);
    }

    /// What `second` says of the words of grown cases, the model says too, and how many rows they touch.
    #[test]
    fn the_model_answers_as_second_does() {
        let mut compared = 0;
        for case in (0..10_000).map(|seed| grow::case(&mut Random::new(seed))) {
            let Ok(program) = second::open(&case.text) else {
                continue;
            };
            let opened = open(std::str::from_utf8(&case.text).expect("it is accepted"));
            let (mut watch, mut model) = (Watch::new(&program), Model::new(&opened));
            for word in words(&case.trace) {
                let touched: BTreeSet<Touched> = model.touched().into_iter().flatten().collect();
                let taken = watch.take(word);
                let answer = match taken.answer {
                    Answer::Refused(_) => break,
                    Answer::Ok => None,
                    Answer::Bad(number) => Some(number),
                };
                assert_eq!(model.take(word).number(), answer, "at tick {} of {}", watch.ticks(), String::from_utf8_lossy(&case.text));
                assert_eq!(model.stores, watch.stores());
                assert_eq!(taken.touched as usize, touched.len(), "at tick {} of {}", watch.ticks(), String::from_utf8_lossy(&case.text));
                compared += 1;
            }
        }
        assert!(compared > 50_000, "{compared}");
    }

    /// How two starts of one thread meet at a word.
    #[derive(Debug, Default)]
    struct Meetings {
        /// The older one has its last letter there.
        at_the_last_letter: u64,
        /// Both require the same letter.
        in_the_same_place: u64,
        of_an_inner_thread: u64,
    }

    impl Meetings {
        fn count(&mut self, opened: &Opened, met: &[Met]) {
            for (i, one) in met.iter().enumerate() {
                let thread = one.rest.thread();
                for other in met[i + 1..].iter().filter(|other| thread.is_some() && other.rest.thread() == thread) {
                    self.at_the_last_letter += u64::from(one.rest.over().is_some() != other.rest.over().is_some());
                    self.in_the_same_place += u64::from(one.letter == other.letter);
                    self.of_an_inner_thread += u64::from(is_inner(opened, thread.expect("it is one")));
                }
            }
        }
    }

    /// Whether a thread stands inside another. A part stands behind its operands, and the left of these before the right.
    fn is_inner(opened: &Opened, thread: usize) -> bool {
        let mut outer = opened.parts.iter().filter_map(|part| if let Part::Pipe(left, right) = part { Some(*left + 1..*right) } else { None });
        outer.any(|parts| parts.contains(&thread))
    }

    #[test]
    fn starts_meet_in_many_ways() {
        let mut meetings = Meetings::default();
        for case in (0..10_000).map(|seed| grow::case(&mut Random::new(seed))) {
            let Some(opened) = second::open(&case.text).ok().and_then(|_| threads::opened(&case.text)) else {
                continue;
            };
            let mut model = Model::new(&opened);
            for word in words(&case.trace) {
                let crossed = model.cross(word);
                if matches!(model.said(&crossed), Said::Busy(_)) {
                    crossed.iter().flatten().for_each(|met| meetings.count(&opened, met));
                }
                if model.take(word) != OK {
                    break;
                }
            }
        }
        assert!(meetings.at_the_last_letter > 100 && meetings.in_the_same_place > 50 && meetings.of_an_inner_thread > 50, "{meetings:?}");
    }
}

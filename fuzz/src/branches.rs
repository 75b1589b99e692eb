//! The branches of monitors one by one, as the rules have them (docs/REFERENCE.md, F4 to F21): a slow reading that the tests hold the model to. Nothing of a
//! branch is kept from tick to tick: at each tick all of them are listed anew, over all words. Limits (F29 to F31) are counted anew too, tick by tick.

use crate::opened::{Letter, Limit, Opened, Part};
use std::collections::BTreeSet;

/// A branch on its way.
#[derive(Clone, Default)]
struct Way {
    /// The next tick.
    tick: usize,
    /// The letters that it has at the last tick that has a word.
    last: BTreeSet<usize>,
    /// The ticks at which a start of a thread required a letter, by the part that the thread is.
    required: BTreeSet<(usize, usize)>,
}

/// A watch that reads so.
struct Reading<'o> {
    opened: &'o Opened,
    words: Vec<u64>,
    /// The stores before each tick.
    stores: Vec<Vec<u64>>,
    /// The letters met at each tick.
    met: Vec<BTreeSet<usize>>,
}

/// What the reading says of a word: for each monitor, the letters that each branch has which fits; and the lowest limit that it is beyond if all fit.
struct Read {
    monitors: Vec<Vec<BTreeSet<usize>>>,
    beyond: Option<usize>,
}

impl<'o> Reading<'o> {
    fn new(opened: &'o Opened) -> Self {
        Reading { opened, words: Vec::new(), stores: vec![opened.stores.clone()], met: Vec::new() }
    }

    /// Takes a word. It counts as taken if no monitor is without a branch and it is beyond no limit.
    fn take(&mut self, word: u64) -> Read {
        self.words.push(word);
        let monitors = self.opened.monitors.iter().map(|&monitor| {
            let mut branches = Vec::new();
            self.again(monitor, &Way::default(), &mut |way| branches.push(way.last.clone()));
            branches
        });
        let monitors: Vec<_> = monitors.collect();
        let fits = !monitors.iter().any(Vec::is_empty);
        self.met.push(monitors.iter().flatten().flatten().copied().collect());
        let beyond = self.opened.limits.iter().position(|limit| fits && self.is_beyond(limit));
        if fits && beyond.is_none() {
            self.stores.push(self.written(word, &self.met[self.met.len() - 1]));
        } else {
            self.words.pop();
            self.met.pop();
        }
        Read { monitors, beyond }
    }

    /// Whether more of the last ticks than a limit allows meet a letter that counts.
    fn is_beyond(&self, limit: &Limit) -> bool {
        let last = self.met.iter().rev().take(limit.window);
        last.filter(|met| met.iter().any(|&letter| limit.counts[letter])).count() > limit.most
    }

    /// The stores behind the last of them, with these letters met.
    fn written(&self, word: u64, met: &BTreeSet<usize>) -> Vec<u64> {
        let mut stores = self.stores[self.words.len() - 1].clone();
        for (store, value) in met.iter().flat_map(|&letter| &self.opened.letters[letter].writes) {
            stores[*store] = value.of(word);
        }
        stores
    }

    fn holds(&self, letter: &Letter, tick: usize) -> bool {
        let word = self.words[tick];
        let before = if tick == 0 { 0 } else { self.words[tick - 1] };
        let wires = word & letter.look == letter.want && word & letter.held == before & letter.held;
        wires && letter.tests.iter().all(|(store, value)| self.stores[tick][*store] == value.of(word))
    }

    fn is_past(&self, way: &Way) -> bool {
        way.tick == self.words.len()
    }

    /// A monitor, as often as it ends.
    fn again(&self, monitor: usize, way: &Way, found: &mut dyn FnMut(&Way)) {
        if self.is_past(way) {
            return found(way);
        }
        self.fit(monitor, None, way, &mut |way| self.again(monitor, way, found));
    }

    /// All ways through a part of a thread, or of the monitor itself. Behind the last word nothing is settled any more: a part is gone through in one way.
    fn fit(&self, part: usize, thread: Option<usize>, way: &Way, then: &mut dyn FnMut(&Way)) {
        let is_past = self.is_past(way);
        match self.opened.parts[part] {
            Part::Letter(_) | Part::Star(_) if is_past => then(way),
            Part::Letter(letter) if self.holds(&self.opened.letters[letter], way.tick) => {
                self.over(letter, thread, way).iter().for_each(then);
            }
            Part::Letter(_) => (),
            Part::Sequence(e, f) => self.fit(e, thread, way, &mut |way| self.fit(f, thread, way, then)),
            Part::Choice(e, f) => {
                self.fit(e, thread, way, then);
                if !is_past {
                    self.fit(f, thread, way, then);
                }
            }
            Part::Star(body) => {
                then(way);
                self.fit(body, thread, way, &mut |way| self.fit(part, thread, way, then));
            }
            Part::Pipe(e, f) => self.fit(e, thread, way, &mut |left| {
                self.fit(f, Some(f), left, &mut |way| then(&Way { tick: left.tick, ..way.clone() }));
            }),
        }
    }

    /// The way over a letter; none if another start of its thread requires one at this tick.
    fn over(&self, letter: usize, thread: Option<usize>, way: &Way) -> Option<Way> {
        let mut way = way.clone();
        if thread.is_some_and(|thread| !way.required.insert((thread, way.tick))) {
            return None;
        }
        way.tick += 1;
        if self.is_past(&way) {
            way.last.insert(letter);
        }
        Some(way)
    }
}

mod tests {
    use super::*;
    use crate::compare::words;
    use crate::model::{Model, Said};
    use crate::opened::{accepted, open};
    use crate::random::Random;
    use crate::{follow, grow, limited, several, threads};

    /// So many words of a case are read, up to one that so many branches fit.
    const WORDS: usize = 7;
    const BRANCHES: usize = 300;

    /// A text by both, side by side.
    struct Both<'o> {
        text: &'o [u8],
        reading: Reading<'o>,
        model: Model<'o>,
        /// Whether two branches had a letter at some tick.
        several: bool,
        /// Whether a word was beyond a limit.
        beyond: bool,
    }

    impl Both<'_> {
        /// Takes a word, of which both must say the same. How many branches the monitor has that has most of them, or none if the word is bad.
        fn take(&mut self, word: u64) -> Option<usize> {
            let shown = String::from_utf8_lossy(self.text);
            let (ways, fitting) = (self.model.ways(word), self.model.fitting(word));
            let (Read { monitors, beyond }, said) = (self.reading.take(word), self.model.take(word));
            assert_eq!(monitors.iter().filter(|branches| !branches.is_empty()).count(), fitting, "{shown}");
            if let Some(monitor) = monitors.iter().position(Vec::is_empty) {
                assert!(said == Said::Bad(monitor) || said == Said::Busy(monitor), "{shown}");
                return None;
            }
            if let Some(limit) = beyond {
                assert_eq!(said, Said::Beyond(limit), "{shown}");
                self.beyond = true;
                return None;
            }
            let met: BTreeSet<&usize> = monitors.iter().flatten().flatten().collect();
            assert!(said == Said::Ok && met.into_iter().eq(self.model.letters()), "{shown}");
            self.several |= ways > 1;
            let most = monitors.iter().map(Vec::len).max()?;
            assert_eq!(most > 1, self.several, "{shown}");
            Some(most)
        }
    }

    #[derive(Debug, Default)]
    struct Compared {
        ok: u64,
        bad: u64,
        /// Texts with a tick at which two branches have a letter.
        several: u64,
        /// Texts with a word beyond a limit.
        beyond: u64,
    }

    impl Compared {
        fn compare(&mut self, text: &[u8], words: &[u64]) {
            let Some(opened) = accepted(text) else {
                return;
            };
            let mut both = Both { text, reading: Reading::new(&opened), model: Model::new(&opened), several: false, beyond: false };
            for &word in words.iter().take(WORDS).take_while(|word| word.checked_shr(opened.wires).unwrap_or(0) == 0) {
                let branches = both.take(word);
                self.ok += u64::from(branches.is_some());
                self.bad += u64::from(branches.is_none());
                if branches.is_none_or(|branches| branches > BRANCHES) {
                    break;
                }
            }
            self.several += u64::from(both.several);
            self.beyond += u64::from(both.beyond);
        }
    }

    /// The same monitors fit, the same letters are met, and two branches have a letter at the same ticks.
    #[test]
    fn the_model_meets_the_letters_of_all_branches() {
        let mut compared = Compared::default();
        for seed in 0..2000 {
            let random = &mut Random::new(seed);
            let case = grow::case(random);
            compared.compare(&case.text, &words(&case.trace));
            for text in [several::text(random), threads::text(random), limited::text(random)] {
                let words = follow::words(random, text.as_bytes());
                compared.compare(text.as_bytes(), &words);
            }
        }
        assert!(compared.ok > 20_000 && compared.bad > 500 && compared.several > 1000 && compared.beyond > 100, "{compared:?}");
    }

    /// The letters that each branch has at the last of the words.
    fn branches(body: &str, words: &[u64]) -> Vec<Vec<usize>> {
        let opened = open(&format!("input a; input b; input c; input d; p -> {body}; monitor p;"));
        let mut reading = Reading::new(&opened);
        let listed = words.iter().map(|&word| reading.take(word).monitors.remove(0));
        listed.last().expect("there is a word").into_iter().map(|letters| letters.into_iter().collect()).collect()
    }

    #[test]
    fn branches_are_listed() {
        assert_eq!(branches("a, b", &[1, 2]), [[1]]);
        assert_eq!(branches("a, b", &[1, 1]), [[0; 0]; 0]);
        assert_eq!(branches("a, (b & !c)*, !b", &[1, 2, 2]), [[1]]);
        assert_eq!(branches("(a* || b & !a*), !a & !b", &[0]), [[2], [2]]);
        assert_eq!(branches("(a* || b & !a*), !a & !b", &[0, 0]), [[2]; 4]);
        assert_eq!(branches("a @ (b, c)", &[1, 3]), [[0, 1]]);
        assert_eq!(branches("a @ (b, c)", &[1, 3, 7]), [[0; 0]; 0]);
        assert_eq!(branches("(a, ((b & !c)* || (c & !b)*)) @ (d, d), !a & !b & !c", &[1, 8, 9]), [[0, 4], [0, 4]]);
    }
}

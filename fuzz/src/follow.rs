//! Words for a rule text: they keep the rules as long as such words are found quickly, and then leave them, for some. Where the text has `past`, many words are
//! the one before on the fields that it holds, and many are that but for a bit. Where it has threads, many words meet a letter of a left operand of `@`; of the
//! traces some take a word back where it led to a thread that is started while it runs, and others end there, with a word that is bad for that alone. Where it
//! has several monitors, many traces end with a word that is bad for a later one and fits those before it. Where it has limits, many words meet a letter that
//! counts, so that windows are full, and many traces go round the longest window; most end with a word beyond a limit, some with one that is bad for a monitor
//! as well.

use crate::model::{Model, Said};
use crate::opened::{self, Limit, Opened};
use crate::random::Random;
use crate::{past, windows};
use second::{Answer, Watch};

/// So many words are tried before none is said to be found.
const TRIES: usize = 40;

/// The most words of a trace that are taken back.
const BACKS: usize = 8;

/// The most words that are taken to come to a busy thread, or to a full window.
const TOWARDS: usize = 8;

/// Of the words that are tried in one place, the first so many may be steered to letters that count.
const STEERED: usize = 8;

/// One of the bits of a word that is not 0.
fn bit_of(random: &mut Random, word: u64) -> u64 {
    let bits: Vec<u64> = (0..64).map(|i| 1 << i).filter(|bit| word & bit != 0).collect();
    *random.pick(&bits)
}

/// What words for a text are made of: its wires, how many monitors it has, the fields that `past` holds, and the letters that start threads and those that count
/// for limits, by the wires they look at and want.
struct Makings {
    mask: u64,
    monitors: usize,
    fields: Vec<u64>,
    starters: Vec<(u64, u64)>,
    counting: Vec<(u64, u64)>,
    /// So many of 16 words are steered to a letter that counts.
    eager: usize,
}

impl Makings {
    /// A word to try behind another, for some steered to a letter that counts if that is wanted.
    fn word(&self, random: &mut Random, before: u64, steered: bool) -> u64 {
        let word = self.held_or_not(random, before);
        let letters = if steered && !self.counting.is_empty() && random.below(16) < self.eager {
            &self.counting
        } else if self.starters.is_empty() || random.once_in(2) {
            return word;
        } else {
            &self.starters
        };
        let (look, want) = *random.pick(letters);
        word & !look | want
    }

    /// Any word; where fields are held, they are mostly as before, or but for one bit.
    fn held_or_not(&self, random: &mut Random, before: u64) -> u64 {
        let any = random.word() & self.mask & if random.once_in(3) { random.word() } else { u64::MAX };
        if self.fields.is_empty() {
            return any;
        }
        match random.below(8) {
            0 => before,
            1 => before ^ bit_of(random, self.mask),
            2 => before ^ bit_of(random, self.fields.iter().fold(0, |all, field| all | field)),
            3..=6 => {
                let still = self.fields.iter().filter(|_| !random.once_in(5)).fold(0, |all, field| all | field);
                before & still | any & !still
            }
            _ => any,
        }
    }
}

/// Words that are being found, and the watch that took them.
struct Following<'r, 'p> {
    random: &'r mut Random,
    makings: &'r Makings,
    watch: Watch<'p>,
    words: Vec<u64>,
}

impl Following<'_, '_> {
    fn before(&self) -> u64 {
        self.words.last().copied().unwrap_or(0)
    }

    /// The next word to try, the first of them steered.
    fn word(&mut self, tried: usize) -> u64 {
        let before = self.before();
        self.makings.word(self.random, before, tried < STEERED)
    }

    /// A word for which something holds, if one is found quickly.
    fn word_that(&mut self, holds: impl Fn(&Self, u64) -> bool) -> Option<u64> {
        for tried in 0..TRIES {
            let word = self.word(tried);
            if holds(self, word) {
                return Some(word);
            }
        }
        None
    }

    /// Takes words that are ok, up to so many, or as long as one is found. So often the last one is taken back where none is.
    fn take_words(&mut self, long: usize, mut backs: usize) {
        let mut earlier = None;
        while self.words.len() < long {
            if let Some(word) = self.word_that(|this, word| this.watch.look(word) == Answer::Ok) {
                earlier = (backs > 0).then(|| self.watch.clone());
                self.watch.take(word);
                self.words.push(word);
            } else if let Some(watch) = earlier.take() {
                self.watch = watch;
                self.words.pop();
                backs -= 1;
            } else {
                return;
            }
        }
    }

    /// A bad word that is a bit of a held field away from one that is ok.
    fn put_moving_word(&mut self) {
        for tried in 0..TRIES {
            let word = self.word(tried);
            let field = *self.random.pick(&self.makings.fields);
            let moved = word ^ bit_of(self.random, field);
            let answers = (self.watch.look(word), self.watch.look(moved));
            if matches!(answers, (Answer::Ok, Answer::Bad(_))) {
                self.words.push(moved);
                return;
            }
        }
    }

    /// A model that has taken the words so far.
    fn model<'o>(&self, opened: &'o Opened) -> Model<'o> {
        let mut model = Model::new(opened);
        for &word in &self.words {
            model.take(word);
        }
        model
    }

    /// A word that is bad for a busy thread alone, behind a few words that are ok and may lead to one.
    fn put_busy_word(&mut self, opened: &Opened) {
        self.take_words(self.words.len() + TOWARDS, 0);
        let model = self.model(opened);
        let busy = self.word_that(|_, word| matches!(model.look(word), Said::Busy(_)));
        self.words.extend(busy);
    }

    /// A word that is bad for a monitor behind others, which it fits.
    fn put_later_bad_word(&mut self) {
        let bad = self.word_that(|this, word| matches!(this.watch.look(word), Answer::Bad(1..windows::FIRST)));
        self.words.extend(bad);
    }

    /// A word beyond a limit that fits all monitors, behind as many that are ok as it takes, up to so many; if that is wanted, one that would be ok with one tick
    /// fewer in the window.
    fn put_word_beyond(&mut self, opened: &Opened, towards: usize, just: bool) {
        let mut model = self.model(opened);
        for _ in 0..towards {
            for &(look, want) in &self.makings.counting {
                let before = self.before();
                let word = self.makings.held_or_not(self.random, before) & !look | want;
                if matches!(self.watch.look(word), Answer::Bad(windows::FIRST..)) && (!just || model.is_just_beyond(word)) {
                    return self.words.push(word);
                }
            }
            let from = self.words.len();
            self.take_words(from + 1, 0);
            let Some(&word) = self.words.get(from) else {
                return;
            };
            model.take(word);
        }
    }

    /// A word that is bad for a monitor, and beyond a limit by the letters of others; or, if none is found quickly, one that is beyond a limit alone.
    fn put_word_bad_in_two_ways(&mut self, opened: &Opened) {
        let model = self.model(opened);
        let is_both = |word: u64| matches!(model.look(word), Said::Bad(_) | Said::Busy(_)) && model.counted().beyond(&model.met(word)).next().is_some();
        match self.word_that(|_, word| is_both(word)) {
            Some(word) => self.words.push(word),
            None => self.put_word_beyond(opened, TOWARDS, false),
        }
    }

    /// A few words that need not be ok.
    fn put_any_words(&mut self) {
        for _ in 0..self.random.below(4) {
            let word = if self.random.once_in(6) { self.random.word() } else { self.word(0) };
            self.words.push(word);
        }
    }

    /// Ends with words that are not ok, mostly: where letters count for limits, with one beyond a limit.
    fn leave(&mut self, opened: &Opened) {
        if self.makings.counting.is_empty() || self.random.once_in(5) {
            self.leave_monitors(opened);
        } else if self.makings.monitors > 1 && self.random.once_in(2) {
            self.put_word_bad_in_two_ways(opened);
        } else if self.random.once_in(2) {
            self.put_word_beyond(opened, TOWARDS, false);
        } else {
            self.put_word_beyond(opened, longest(&opened.limits), true);
        }
    }

    /// Ends with words that need not fit all monitors.
    fn leave_monitors(&mut self, opened: &Opened) {
        if opened.has_threads() && !self.random.once_in(4) {
            self.put_busy_word(opened);
        } else if !self.makings.fields.is_empty() && !self.random.once_in(3) {
            self.put_moving_word();
        } else if self.makings.monitors > 1 && !self.random.once_in(3) {
            self.put_later_bad_word();
        } else if self.random.once_in(2) {
            self.put_any_words();
        }
    }
}

/// The longest window of some limits; 0 if there are none.
fn longest(limits: &[Limit]) -> usize {
    limits.iter().map(|limit| limit.window).max().unwrap_or(0)
}

/// How many words a trace is to have, at most: with limits that letters count for mostly as many as go round the longest window, some twice and more.
fn length(random: &mut Random, limits: &[Limit], counting: bool) -> usize {
    let longest = if counting { longest(limits) } else { 0 };
    let rounds = *random.pick(if longest < 200 { &[0, 1, 2, 3, 4, 6] } else { &[0, 1, 1, 2, 3, 3] });
    longest * rounds + random.below(60)
}

/// Words that keep the rules for a while, and perhaps a few more.
pub fn words(random: &mut Random, text: &[u8]) -> Vec<u64> {
    let Ok(program) = second::open(text) else {
        return vec![random.word(); random.below(3)];
    };
    let opened = opened::open(std::str::from_utf8(text).expect("an accepted text is ASCII"));
    let mask = u64::MAX.checked_shr(64 - program.wires()).unwrap_or(0);
    let (starters, counting) = (opened.starters(), opened.counting());
    let eager = *random.pick(&[4, 8, 12, 15, 16, 16, 16, 16]);
    let makings = Makings { mask, monitors: program.monitors(), fields: past::fields(text), starters, counting, eager };
    let (long, careful) = (length(random, &opened.limits, !makings.counting.is_empty()), random.once_in(2));
    let mut following = Following { random, makings: &makings, watch: Watch::new(&program), words: Vec::new() };
    following.take_words(long, if careful && opened.has_threads() { BACKS } else { 0 });
    following.leave(&opened);
    let mut words = following.words;
    if program.wires() < 64 && random.once_in(8) {
        words.push(words.last().unwrap_or(&0) | 1 << program.wires());
    }
    words
}

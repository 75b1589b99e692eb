//! The watch: branches, stores, the last word, the tick count, the totals of the
//! letters and the ticks of the limits, carried from tick to tick.
//!
//! A look judges a word; a take judges it by the same look and then moves the
//! watch over it. So the two never answer differently.

use std::cell::RefCell;

use crate::fit::{Branch, Crossing, Monitor};
use crate::letter::Moment;
use crate::limit;
use crate::refusal::{Reason, Refusal};
use crate::rows::Touched;
use crate::set::Set;
use crate::shape::Program;

/// What a look or a take answers.
#[derive(Clone, Copy, Debug, PartialEq, Eq)]
pub enum Answer {
    Ok,
    /// The lowest monitor that no longer fits; if all do, 32 and the number of
    /// the lowest limit that the tick is beyond.
    Bad(usize),
    Refused(Refusal),
}

/// What a take gives: its answer, and how many rows it touched.
#[derive(Clone, Copy, Debug, PartialEq, Eq)]
pub struct Taken {
    pub answer: Answer,
    /// The rows asked and the rows left, each row once as either; 0 if the
    /// take was refused.
    pub touched: u32,
}

/// A running watch over an opened text.
#[derive(Clone)]
pub struct Watch<'p> {
    program: &'p Program,
    ticks: u32,
    stopped: bool,
    /// The word of the last ok take.
    before: u64,
    stores: Vec<u64>,
    /// For each monitor, the branches that fit all words so far.
    branches: Vec<Vec<Branch>>,
    /// For each monitor, at how many ticks each of its letters was met.
    totals: Vec<Vec<u32>>,
    /// For each limit, the ticks at which a letter that it counts was met.
    limited: Vec<Vec<u32>>,
    /// Kept so that no look has to make room of its own. A take goes on with
    /// what its look has left there; a later look begins anew.
    room: RefCell<Room>,
}

/// Room to work in.
#[derive(Clone)]
struct Room {
    /// For each monitor, the branches after the word looked at.
    next: Vec<Vec<Branch>>,
    crossings: Vec<Crossing>,
    /// Of one monitor at a time.
    touched: Touched,
}

impl<'p> Watch<'p> {
    pub fn new(program: &'p Program) -> Self {
        let monitors = program.monitors();
        let no_totals = |monitor: &Monitor| vec![0; monitor.letters()];
        Watch {
            program,
            ticks: 0,
            stopped: false,
            before: 0,
            stores: program.stores.clone(),
            branches: vec![vec![Branch::before_tick_0()]; monitors],
            totals: program.monitors.iter().map(no_totals).collect(),
            limited: vec![Vec::new(); program.limits()],
            room: RefCell::new(Room {
                next: vec![Vec::new(); monitors],
                crossings: Vec::new(),
                touched: Touched::default(),
            }),
        }
    }

    /// How many takes were ok.
    pub fn ticks(&self) -> u32 {
        self.ticks
    }

    /// The word of the last take that was ok; zero before tick 0.
    pub fn word_before(&self) -> u64 {
        self.before
    }

    /// The store values, in the order of their declarations.
    pub fn stores(&self) -> &[u64] {
        &self.stores
    }

    /// For each monitor and each of its letters, at how many ticks the letter
    /// was met.
    pub fn totals(&self) -> &[Vec<u32>] {
        &self.totals
    }

    /// The most branches any monitor has. Without forks it is 1.
    pub fn widest(&self) -> usize {
        self.branches.iter().map(Vec::len).max().unwrap_or(0)
    }

    /// Says what a take of the word would answer now. The watch stays as it
    /// is, whatever the answer.
    pub fn look(&self, word: u64) -> Answer {
        if let Some(reason) = self.refusal(word) {
            return Answer::Refused(Refusal::at_tick(reason, self.ticks));
        }
        // No limit is asked unless all monitors fit.
        match self.cross(word).or_else(|| self.limit_exceeded()) {
            Some(number) => Answer::Bad(number),
            None => Answer::Ok,
        }
    }

    /// Takes the word. If it is bad the watch stops and is otherwise as it
    /// was; a refusal changes nothing.
    pub fn take(&mut self, word: u64) -> Taken {
        let answer = self.look(word);
        let touched = match answer {
            Answer::Ok | Answer::Bad(_) => self.touched(),
            Answer::Refused(_) => 0,
        };
        match answer {
            Answer::Ok => self.move_over(word),
            Answer::Bad(_) => self.stopped = true,
            Answer::Refused(_) => (),
        }
        Taken { answer, touched }
    }

    /// How many rows a take touches in all monitors now, whatever its word and
    /// whichever of them fit it.
    fn touched(&mut self) -> u32 {
        let room = &mut self.room.get_mut().touched;
        let monitors = self.program.monitors.iter().zip(&self.branches);
        monitors
            .map(|(monitor, branches)| monitor.touched(branches, room))
            .sum()
    }

    /// Moves the watch over the word it has just found to be ok.
    fn move_over(&mut self, word: u64) {
        std::mem::swap(&mut self.branches, &mut self.room.get_mut().next);
        self.meet_letters(word);
        self.count_for_limits();
        self.before = word;
        self.ticks += 1;
    }

    fn refusal(&self, word: u64) -> Option<Reason> {
        if self.stopped {
            Some(Reason::Stopped)
        } else if self.ticks >= limit::TICKS {
            Some(Reason::Full)
        } else if self.is_stray(word) {
            Some(Reason::Stray)
        } else {
            None
        }
    }

    /// Whether a bit stands above the wires.
    fn is_stray(&self, word: u64) -> bool {
        word.checked_shr(self.program.wires()).unwrap_or(0) != 0
    }

    /// Finds all branches after the word and leaves them in the room; gives
    /// the lowest monitor left without a branch.
    fn cross(&self, word: u64) -> Option<usize> {
        let Room {
            next, crossings, ..
        } = &mut *self.room.borrow_mut();
        let moment = Moment {
            word,
            before: self.before,
            stores: &self.stores,
        };
        for (number, monitor) in self.program.monitors.iter().enumerate() {
            let found = &mut next[number];
            found.clear();
            for branch in &self.branches[number] {
                monitor.cross(*branch, moment, crossings, found);
            }
            if found.is_empty() {
                return Some(number);
            }
        }
        None
    }

    /// The number reported for the lowest limit that the tick is beyond whose
    /// branches are in the room.
    fn limit_exceeded(&self) -> Option<usize> {
        let next = &self.room.borrow().next;
        let mut limits = self.program.windows.iter().zip(&self.limited);
        let exceeded = limits
            .position(|(window, ticks)| window.is_exceeded(ticks, self.ticks, window.is_met(next)));
        exceeded.map(|number| limit::MONITORS + number)
    }

    /// Enters the tick for each limit of which a letter was met.
    fn count_for_limits(&mut self) {
        for (window, ticks) in self.program.windows.iter().zip(&mut self.limited) {
            if window.is_met(&self.branches) {
                ticks.push(self.ticks);
            }
        }
    }

    /// Counts the letters met and carries out their writes; the last one to a
    /// store stands, so monitors, letters and writes go in rising order.
    fn meet_letters(&mut self, word: u64) {
        let monitors = self.program.monitors.iter().zip(&self.branches);
        for ((monitor, branches), totals) in monitors.zip(&mut self.totals) {
            for letter in met(branches).iter() {
                totals[usize::from(letter)] += 1;
                for write in &monitor.letter(letter).writes {
                    write.apply(word, &mut self.stores);
                }
            }
        }
    }
}

/// The letters met at the last tick: those that any of the branches had, each
/// once.
fn met(branches: &[Branch]) -> Set {
    let mut met = Set::EMPTY;
    for branch in branches {
        met.insert_all(&branch.letters());
    }
    met
}

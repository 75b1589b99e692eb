//! How the branches of a monitor move over one word.
//!
//! A branch goes one way at each `||` and each round of a star. Between two
//! ticks it is fully described by the letters it just went over: its own and
//! those of the threads it has started. Each of these is an obligation, as
//! what follows the letter must fit from the next tick on. The branch moves
//! over a word by choosing a way on for each of its obligations and for each
//! thread started by that; if one of them has no way, the branch does not fit.
//!
//! Nor does it fit if two starts of one thread both require a letter at this
//! tick. So the letters of a branch that fits belong to different runs, and
//! the set of them says all there is to know: no two starts are in the same
//! place, and a start is known by the thread of its letter. What can clash at
//! the next tick follows from this.
//!
//! - Not two starts that go on: they are of different threads, and nothing
//!   leads out of a thread.
//! - Not two that begin: the left operand of an `@` belongs to one run, and so
//!   it is left from one letter at most, and once, as it is not hollow (rule
//!   10). A star left in two ways is two branches, but these do not differ in
//!   letters and starts, and the graph has one way for both.
//! - So only one that begins and one that goes on. The older one goes on if
//!   and only if its letter of the tick before was not a last one of the
//!   thread (rule 11).
//!
//! In a text without forks no branch can choose between two letters on one
//! word, so one branch stays one branch. The answers do not rely on this, only
//! the speed does.

use crate::graph::{Graph, LetterNo, Next, WHOLE};
use crate::letter::{Letter, Moment};
use crate::rows::Touched;
use crate::set::Set;

/// A branch between two ticks.
#[derive(Clone, Copy, Debug, PartialEq, Eq)]
pub struct Branch {
    /// The letters whose tick was the last one, no two of the same run.
    letters: Set,
    /// The runs that start with the next tick.
    starts: Set,
}

impl Branch {
    /// The branch before tick 0: the monitor itself starts.
    pub fn before_tick_0() -> Self {
        Branch {
            letters: Set::EMPTY,
            starts: Set::of(WHOLE),
        }
    }

    fn at(letters: Set) -> Self {
        Branch {
            letters,
            starts: Set::EMPTY,
        }
    }

    /// The letters whose tick was the last one.
    pub fn letters(&self) -> Set {
        self.letters
    }
}

/// A branch on its way over a word: obligations still to be moved on, and the
/// letters it goes over with this word so far.
#[derive(Clone, Copy)]
pub struct Crossing {
    todo: Branch,
    over: Set,
}

/// A way on from a letter, its letters listed for the search at each tick;
/// no list means that anything may come.
struct Way {
    starts: Set,
    /// The letters of the threads it starts after which an older start of
    /// them goes on.
    midway: Set,
    next: Option<Vec<LetterNo>>,
}

/// A monitor, ready to run.
pub struct Monitor {
    letters: Vec<Letter>,
    ways: Vec<Vec<Way>>,
    first: Vec<Vec<LetterNo>>,
    /// The rows touched at tick 0.
    begin: Touched,
    /// For each letter, the rows touched at the tick after it.
    after: Vec<Touched>,
    /// For each letter, how many these are.
    count_after: Vec<u32>,
}

impl Monitor {
    pub fn new(graph: Graph) -> Self {
        let listed = |way| listed(way, &graph.midway);
        Monitor {
            letters: graph.letters,
            ways: graph
                .ways
                .iter()
                .map(|ways| ways.iter().map(listed).collect())
                .collect(),
            first: graph
                .first
                .iter()
                .map(|first| first.iter().collect())
                .collect(),
            begin: graph.begin,
            count_after: graph.after.iter().map(Touched::count).collect(),
            after: graph.after,
        }
    }

    /// How many letters it has.
    pub fn letters(&self) -> usize {
        self.letters.len()
    }

    pub fn letter(&self, number: LetterNo) -> &Letter {
        &self.letters[usize::from(number)]
    }

    /// How many rows are touched at a tick before which these are the branches:
    /// the rows asked by any of them, and the rows left by any of them. `room`
    /// is room to work in.
    pub fn touched(&self, branches: &[Branch], room: &mut Touched) -> u32 {
        // A branch that has a letter starts nothing.
        if let [Branch { letters, .. }] = branches {
            if let Some(letter) = letters.only() {
                return self.count_after[usize::from(letter)];
            }
        }
        room.clear();
        for branch in branches {
            if branch.starts.contains(WHOLE) {
                room.insert_all(&self.begin);
            }
            for letter in branch.letters.iter() {
                room.insert_all(&self.after[usize::from(letter)]);
            }
        }
        room.count()
    }

    /// Finds every branch that `from` becomes over the word, adding those not
    /// yet in `found`. `crossings` is room to work in.
    pub fn cross(
        &self,
        from: Branch,
        moment: Moment<'_>,
        crossings: &mut Vec<Crossing>,
        found: &mut Vec<Branch>,
    ) {
        crossings.clear();
        crossings.push(Crossing {
            todo: from,
            over: Set::EMPTY,
        });
        while let Some(mut crossing) = crossings.pop() {
            // Letters go before starts, since they can add starts.
            if let Some(letter) = crossing.todo.letters.pop() {
                self.move_on(letter, &from, crossing, moment, crossings);
            } else if let Some(run) = crossing.todo.starts.pop() {
                self.go_over(&self.first[usize::from(run)], crossing, moment, crossings);
            } else {
                let branch = Branch::at(crossing.over);
                if !found.contains(&branch) {
                    found.push(branch);
                }
            }
        }
    }

    /// Takes each way on from a letter of the tick before, but none that starts
    /// a thread of which an older start goes on.
    fn move_on(
        &self,
        letter: LetterNo,
        from: &Branch,
        crossing: Crossing,
        moment: Moment<'_>,
        crossings: &mut Vec<Crossing>,
    ) {
        for way in &self.ways[usize::from(letter)] {
            if from.letters.meets(&way.midway) {
                continue;
            }
            let mut crossing = crossing;
            debug_assert!(!crossing.todo.starts.meets(&way.starts));
            crossing.todo.starts.insert_all(&way.starts);
            match &way.next {
                None => crossings.push(crossing),
                Some(letters) => self.go_over(letters, crossing, moment, crossings),
            }
        }
    }

    /// Goes over each of the letters that the moment meets.
    fn go_over(
        &self,
        letters: &[LetterNo],
        crossing: Crossing,
        moment: Moment<'_>,
        crossings: &mut Vec<Crossing>,
    ) {
        for &letter in letters {
            if self.letter(letter).condition.holds(moment) {
                let mut crossing = crossing;
                crossing.over.insert(letter);
                crossings.push(crossing);
            }
        }
    }
}

/// Lists a way; `midway` is that of the graph.
fn listed(way: &crate::graph::Way, midway: &[Set]) -> Way {
    let next = match way.next {
        Next::Anything => None,
        Next::OneOf(letters) => Some(letters.iter().collect()),
    };
    let mut of_starts = Set::EMPTY;
    for thread in way.starts.iter() {
        of_starts.insert_all(&midway[usize::from(thread)]);
    }
    Way {
        starts: way.starts,
        midway: of_starts,
        next,
    }
}

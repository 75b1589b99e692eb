//! The rows that a tick touches (docs/REFERENCE.md, F23 to F26), for texts that `second` accepts. A row is a part of the opened text. All depends on the letters
//! met before the tick: from each of them a walk goes up, over the parts that can have ended with it, and down, over those that can begin behind these.

use crate::opened::{Opened, Part};
use std::collections::BTreeSet;

/// A row that is touched, by its part.
#[derive(Clone, Copy, Debug, PartialEq, Eq, PartialOrd, Ord)]
pub enum Touched {
    Asked(usize),
    Left(usize),
}

/// The parts of a text, as they stand in each other.
pub struct Rows<'o> {
    opened: &'o Opened,
    /// For each part, the one that it is an operand of; none for a monitor.
    above: Vec<Option<usize>>,
    /// For each letter, its part.
    letters: Vec<usize>,
}

impl<'o> Rows<'o> {
    pub fn new(opened: &'o Opened) -> Self {
        let mut rows = Rows { opened, above: vec![None; opened.parts.len()], letters: Vec::new() };
        for (number, part) in opened.parts.iter().enumerate() {
            match *part {
                Part::Letter(_) => rows.letters.push(number),
                Part::Star(body) => rows.above[body] = Some(number),
                Part::Sequence(e, f) | Part::Choice(e, f) | Part::Pipe(e, f) => {
                    rows.above[e] = Some(number);
                    rows.above[f] = Some(number);
                }
            }
        }
        rows
    }

    /// The rows of a monitor that tick 0 touches.
    pub fn at_first(&self, monitor: usize) -> BTreeSet<Touched> {
        let mut touched = BTreeSet::new();
        self.ask(monitor, &mut touched);
        touched
    }

    /// The rows that a tick touches behind a letter.
    pub fn behind(&self, letter: usize) -> BTreeSet<Touched> {
        let mut touched = BTreeSet::new();
        self.leave(self.letters[letter], &mut touched);
        touched
    }

    fn ask(&self, part: usize, touched: &mut BTreeSet<Touched>) {
        if !touched.insert(Touched::Asked(part)) {
            return;
        }
        match self.opened.parts[part] {
            Part::Letter(_) => (),
            Part::Sequence(e, _) | Part::Pipe(e, _) => self.ask(e, touched),
            Part::Choice(e, f) => {
                self.ask(e, touched);
                self.ask(f, touched);
            }
            Part::Star(body) => {
                self.ask(body, touched);
                self.leave(part, touched);
            }
        }
    }

    fn leave(&self, part: usize, touched: &mut BTreeSet<Touched>) {
        if !touched.insert(Touched::Left(part)) {
            return;
        }
        let Some(above) = self.above[part] else {
            return self.ask(part, touched);
        };
        match self.opened.parts[above] {
            Part::Sequence(e, f) if part == e => return self.ask(f, touched),
            Part::Pipe(_, thread) if part == thread => return,
            Part::Pipe(_, thread) => self.ask(thread, touched),
            Part::Star(body) => self.ask(body, touched),
            _ => (),
        }
        self.leave(above, touched);
    }
}

#[cfg(test)]
mod tests {
    use super::*;
    use crate::compare::words;
    use crate::grow;
    use crate::model::{Model, Said};
    use crate::opened::open;
    use crate::random::Random;

    fn text(body: &str) -> String {
        format!("input a; input b; input c; p -> {body}; monitor p;")
    }

    /// Of `a*, b` the parts are a, the star, b and the `,`, in this order.
    #[test]
    fn rows_are_asked_and_left() {
        use Touched::{Asked, Left};
        let opened = open(&text("a*, b & !a"));
        let rows = Rows::new(&opened);
        assert_eq!(rows.at_first(3), [Asked(0), Asked(1), Asked(2), Asked(3), Left(1)].into());
        assert_eq!(rows.behind(0), [Asked(0), Asked(2), Left(0), Left(1)].into());
        assert_eq!(rows.behind(1), [Asked(0), Asked(1), Asked(2), Asked(3), Left(1), Left(2), Left(3)].into());
    }

    /// How many rows each of the words touches.
    fn numbers(body: &str, words: &[u64]) -> Vec<usize> {
        let opened = open(&text(body));
        let mut model = Model::new(&opened);
        let number = |&word: &u64| {
            let touched: BTreeSet<Touched> = model.touched().into_iter().flatten().collect();
            model.take(word);
            touched.len()
        };
        words.iter().map(number).collect()
    }

    #[test]
    fn rows_are_counted_once_in_each_way() {
        assert_eq!(numbers("a", &[1, 1, 0]), [1, 2, 2]);
        assert_eq!(numbers("a, b", &[1, 2, 0]), [2, 2, 4]);
        assert_eq!(numbers("a @ b || !a", &[1, 2, 0, 0]), [4, 8, 7, 6]);
        assert_eq!(numbers("a @ (b, c)", &[1, 3, 7]), [2, 6, 8]);
        assert_eq!(numbers("(a, ((b & c)* || (b & !c)*)), !b", &[1, 0]), [3, 11]);
    }

    /// How often rows are touched in ways that are easily missed.
    #[derive(Debug, Default)]
    struct Ways {
        /// Both operands of a `||` are left.
        both_of_a_choice: u64,
        several_stars: u64,
        /// A thread has ended.
        thread: u64,
        /// A monitor begins again.
        again: u64,
    }

    impl Ways {
        /// Counts those behind one letter.
        fn count(&mut self, opened: &Opened, touched: &BTreeSet<Touched>) {
            let left = |part: &usize| touched.contains(&Touched::Left(*part));
            let any = |is_so: &dyn Fn(&Part) -> bool| u64::from(opened.parts.iter().any(is_so));
            let stars = (0..opened.parts.len()).filter(|part| matches!(opened.parts[*part], Part::Star(_)) && left(part));
            self.both_of_a_choice += any(&|part| matches!(part, Part::Choice(e, f) if left(e) && left(f)));
            self.several_stars += u64::from(stars.count() > 1);
            self.thread += any(&|part| matches!(part, Part::Pipe(_, thread) if left(thread)));
            self.again += u64::from(opened.monitors.iter().any(left));
        }
    }

    #[test]
    fn rows_are_touched_in_many_ways() {
        let mut ways = Ways::default();
        for case in (0..10_000).map(|seed| grow::case(&mut Random::new(seed))).filter(|case| second::open(&case.text).is_ok()) {
            let opened = open(std::str::from_utf8(&case.text).expect("it is accepted"));
            let mut model = Model::new(&opened);
            for word in words(&case.trace) {
                model.touched().iter().for_each(|touched| ways.count(&opened, touched));
                if model.take(word) != Said::Ok {
                    break;
                }
            }
        }
        assert!(ways.both_of_a_choice > 500 && ways.several_stars > 1000 && ways.thread > 5000 && ways.again > 10_000, "{ways:?}");
    }
}

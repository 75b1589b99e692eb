//! A monitor opened into its letters, with what can come first and next.
//!
//! These are the position automaton's relations (Glushkov's construction),
//! worked out from the leaves up, with one addition: whoever moves on from a
//! letter may leave left operands of `@` on the way, and so each step to a
//! next letter carries the set of threads it starts. For each thread the
//! letters are kept after which it goes on.
//!
//! The same way leads to the rows that are touched. What follows a letter does
//! not look at words, so the rows that can be left with it and those that can
//! be asked then are the same at every tick.

use crate::expr::{Expr, ExprId, Exprs};
use crate::letter::Letter;
use crate::rows::{RowNo, Touched};
use crate::set::Set;

/// The number of a letter within its monitor, in reading order.
pub type LetterNo = u8;

/// The number of a run: something that starts at a tick of its own. Run 0 is
/// the monitor itself, each other one a thread (the right operand of an `@`).
pub type RunNo = u8;

/// The monitor itself.
pub const WHOLE: RunNo = 0;

/// What stands behind a letter on one way out of it.
#[derive(Clone, Copy, Debug, PartialEq, Eq)]
pub enum Next {
    /// One of these letters must come.
    OneOf(Set),
    /// The thread has ended: anything may come.
    Anything,
}

/// A way on from a letter: at the following tick the threads in `starts`
/// begin, and `next` comes.
#[derive(Clone, Copy, Debug, PartialEq, Eq)]
pub struct Way {
    pub starts: Set,
    pub next: Next,
}

/// An opened monitor.
pub struct Graph {
    pub letters: Vec<Letter>,
    /// For each letter, the productions it was opened through, innermost first.
    through: Vec<Vec<ExprId>>,
    /// For each letter, the ways on from it.
    pub ways: Vec<Vec<Way>>,
    /// For each run, the letters that can come first.
    pub first: Vec<Set>,
    /// For each run, the letters after which it goes on: all of its own but
    /// its last ones, after which nothing of it comes (rule 11).
    pub midway: Vec<Set>,
    /// How many rows its table has so far.
    rows: RowNo,
    /// The rows touched at tick 0.
    pub begin: Touched,
    /// For each letter, the rows touched at the tick after it: those left if
    /// parts ended with it, and those asked if others begin there.
    pub after: Vec<Touched>,
}

/// A last letter of a part, and the threads that start when the part is left
/// from this letter.
struct Exit {
    letter: LetterNo,
    starts: Set,
}

/// What its surroundings need to know of a part of the expression.
struct Part {
    nullable: bool,
    first: Set,
    last: Vec<Exit>,
    /// Its letters without those of threads inside it, which are theirs alone.
    own: Set,
    /// The rows touched as it begins: those asked, and those left at once.
    begin: Touched,
}

impl Graph {
    /// Opens an expression of at most 256 letters. A star's body may not be
    /// nullable: this bounds the number of stars, and so the depth of the
    /// recursion, by about twice the number of letters and the number of
    /// productions.
    pub fn open(exprs: &Exprs, monitor: ExprId) -> Graph {
        let mut graph = Graph {
            letters: Vec::new(),
            through: Vec::new(),
            ways: Vec::new(),
            first: vec![Set::EMPTY],
            midway: vec![Set::EMPTY],
            rows: 0,
            begin: Touched::default(),
            after: Vec::new(),
        };
        let whole = graph.part(exprs, monitor);
        graph.first[usize::from(WHOLE)] = whole.first;
        // The monitor is followed by itself for ever, so no letter is its last.
        graph.midway[usize::from(WHOLE)] = whole.own;
        graph.connect(&whole.last, &whole);
        graph.begin = whole.begin;
        graph
    }

    /// The letters that were opened through a production, whether or not through
    /// others besides.
    pub fn opened_through(&self, production: ExprId) -> Set {
        let mut opened = Set::EMPTY;
        for (letter, through) in self.through.iter().enumerate() {
            if through.contains(&production) {
                opened.insert(letter as LetterNo);
            }
        }
        opened
    }

    fn part(&mut self, exprs: &Exprs, id: ExprId) -> Part {
        let part = match exprs.expr(id) {
            Expr::Letter(number) => self.letter(exprs.letter(number)),
            Expr::Star(body) => {
                let body = self.part(exprs, body);
                self.star(body)
            }
            Expr::Sequence(left, right) => {
                let (left, right) = (self.part(exprs, left), self.part(exprs, right));
                self.sequence(left, right)
            }
            Expr::Choice(left, right) => {
                let (left, right) = (self.part(exprs, left), self.part(exprs, right));
                choice(left, right)
            }
            Expr::Pipeline(left, right) => {
                let (left, right) = (self.part(exprs, left), self.part(exprs, right));
                self.pipeline(left, right)
            }
            Expr::Production(body) => return self.production(exprs, id, body),
        };
        self.with_row(part)
    }

    /// Opens a copy of a production, which has no row beside those of its
    /// expression. Every letter that comes of it is opened through it.
    fn production(&mut self, exprs: &Exprs, id: ExprId, body: ExprId) -> Part {
        let first = self.letters.len();
        let part = self.part(exprs, body);
        for through in &mut self.through[first..] {
            through.push(id);
        }
        part
    }

    /// Gives a part its own row, which is asked as the part begins and left as
    /// it ends: with one of its last letters, or at once if it takes no ticks.
    fn with_row(&mut self, mut part: Part) -> Part {
        let row = self.rows;
        self.rows += 1;
        part.begin.ask(row);
        if part.nullable {
            part.begin.leave(row);
        }
        for exit in &part.last {
            self.after[usize::from(exit.letter)].leave(row);
        }
        part
    }

    fn letter(&mut self, letter: &Letter) -> Part {
        let number = self.letters.len() as LetterNo;
        self.letters.push(letter.clone());
        self.through.push(Vec::new());
        self.ways.push(Vec::new());
        self.after.push(Touched::default());
        let exit = Exit {
            letter: number,
            starts: Set::EMPTY,
        };
        Part {
            nullable: false,
            first: Set::of(number),
            last: vec![exit],
            own: Set::of(number),
            begin: Touched::default(),
        }
    }

    /// `e*`: after e comes e again, or what follows the star.
    fn star(&mut self, body: Part) -> Part {
        self.connect(&body.last, &body);
        Part {
            nullable: true,
            ..body
        }
    }

    /// `e , f`: after e comes f.
    fn sequence(&mut self, mut left: Part, right: Part) -> Part {
        self.connect(&left.last, &right);
        if left.nullable {
            left.first.insert_all(&right.first);
            left.begin.insert_all(&right.begin);
        }
        let mut last = right.last;
        if right.nullable {
            last.append(&mut left.last);
        }
        left.own.insert_all(&right.own);
        Part {
            nullable: left.nullable && right.nullable,
            first: left.first,
            last,
            own: left.own,
            begin: left.begin,
        }
    }

    /// `e @ f`: leaving e starts f as a thread; after f comes anything, and
    /// after e what follows the `@`.
    fn pipeline(&mut self, mut left: Part, right: Part) -> Part {
        let thread = self.first.len() as RunNo;
        self.first.push(right.first);
        let mut midway = right.own;
        for exit in right.last {
            midway.remove(exit.letter);
            let way = Way {
                starts: exit.starts,
                next: Next::Anything,
            };
            self.ways[usize::from(exit.letter)].push(way);
        }
        self.midway.push(midway);
        for exit in &mut left.last {
            exit.starts.insert(thread);
            self.after[usize::from(exit.letter)].insert_all(&right.begin);
        }
        left
    }

    /// Lets the part `next` begin after each of the exits.
    fn connect(&mut self, exits: &[Exit], next: &Part) {
        for exit in exits {
            let way = Way {
                starts: exit.starts,
                next: Next::OneOf(next.first),
            };
            self.ways[usize::from(exit.letter)].push(way);
            self.after[usize::from(exit.letter)].insert_all(&next.begin);
        }
    }
}

/// `e || f`: one of them.
fn choice(mut left: Part, mut right: Part) -> Part {
    left.first.insert_all(&right.first);
    left.last.append(&mut right.last);
    left.own.insert_all(&right.own);
    left.begin.insert_all(&right.begin);
    Part {
        nullable: left.nullable || right.nullable,
        ..left
    }
}

#[cfg(test)]
mod tests {
    use super::*;
    use crate::parse::parse;

    fn graph(expression: &str) -> Graph {
        let text = format!("input a; input b; input c; p -> {expression}; monitor p;");
        let parsed = parse(text.as_bytes()).expect("the text keeps to the grammar");
        Graph::open(&parsed.exprs, parsed.monitors[0])
    }

    fn set(numbers: &[u8]) -> Set {
        let mut set = Set::EMPTY;
        numbers.iter().for_each(|&number| set.insert(number));
        set
    }

    fn one_of(starts: &[RunNo], letters: &[LetterNo]) -> Way {
        Way {
            starts: set(starts),
            next: Next::OneOf(set(letters)),
        }
    }

    fn anything(starts: &[RunNo]) -> Way {
        Way {
            starts: set(starts),
            next: Next::Anything,
        }
    }

    #[test]
    fn a_thread_starts_only_when_its_left_operand_is_left() {
        let graph = graph("(a, b*) @ c, !b");
        assert_eq!(graph.first, [set(&[0]), set(&[2])]);
        assert_eq!(graph.ways[0], [one_of(&[], &[1]), one_of(&[1], &[3])]);
        assert_eq!(graph.ways[1], [one_of(&[], &[1]), one_of(&[1], &[3])]);
        assert_eq!(graph.ways[2], [anything(&[])]);
        assert_eq!(graph.ways[3], [one_of(&[], &[0])]);
    }

    #[test]
    fn one_letter_can_leave_several_left_operands() {
        let graph = graph("((a @ b) @ c)*, !a");
        assert_eq!(graph.first, [set(&[0, 3]), set(&[1]), set(&[2])]);
        assert_eq!(
            graph.ways[0],
            [one_of(&[1, 2], &[0]), one_of(&[1, 2], &[3])]
        );
        assert_eq!(graph.ways[3], [one_of(&[], &[0, 3])]);
    }

    #[test]
    fn the_end_of_a_thread_can_start_another() {
        let graph = graph("a @ (b @ c)");
        assert_eq!(graph.first, [set(&[0]), set(&[2]), set(&[1])]);
        assert_eq!(graph.ways[0], [one_of(&[2], &[0])]);
        assert_eq!(graph.ways[1], [anything(&[1])]);
        assert_eq!(graph.ways[2], [anything(&[])]);
    }

    #[test]
    fn a_run_goes_on_after_all_but_its_last_letters() {
        let starred = graph("(a, (b @ (c, a*, b) || c)*, a) @ (a, b)");
        let midway = [set(&[0, 1, 5, 6]), set(&[2, 3]), set(&[7])];
        assert_eq!(starred.midway, midway);
        let either = graph("a @ (b || !b, c, (a || !a, b)) || !a");
        assert_eq!(either.midway, [set(&[0, 7]), set(&[2, 3, 5])]);
    }

    #[test]
    fn letters_of_an_inner_thread_are_its_own() {
        let nested = graph("a @ (b @ (c, b), a) || (b @ (a, b)) @ c");
        let midway = [set(&[0, 5]), set(&[2]), set(&[1]), set(&[6]), set(&[])];
        assert_eq!(nested.midway, midway);
    }

    /// Rows are numbered as parts end: an operator comes behind its operands.
    fn touched(asked: &[RowNo], left: &[RowNo]) -> Touched {
        let mut touched = Touched::default();
        asked.iter().for_each(|&row| touched.ask(row));
        left.iter().for_each(|&row| touched.leave(row));
        touched
    }

    #[test]
    fn a_star_is_asked_once_and_its_body_each_round() {
        // a 0, `*` 1, b 2, `,` 3
        let graph = graph("a*, b & !a");
        assert_eq!(graph.begin, touched(&[0, 1, 2, 3], &[1]));
        assert_eq!(graph.after[0], touched(&[0, 2], &[0, 1]));
        assert_eq!(graph.after[1], touched(&[0, 1, 2, 3], &[1, 2, 3]));
    }

    #[test]
    fn a_pipeline_is_left_where_its_thread_is_asked() {
        // a 0, b 1, c 2, `,` 3, `@` 4, !a 5, `||` 6
        let graph = graph("a @ (b, c) || !a");
        let begin = [0, 4, 5, 6];
        assert_eq!(graph.begin, touched(&begin, &[]));
        assert_eq!(graph.after[0], touched(&[0, 1, 3, 4, 5, 6], &[0, 4, 6]));
        assert_eq!(graph.after[1], touched(&[2], &[1]));
        assert_eq!(graph.after[2], touched(&[], &[2, 3]));
        assert_eq!(graph.after[3], touched(&begin, &[5, 6]));
    }

    #[test]
    fn no_letter_is_reached_in_two_ways() {
        for expression in [
            "((a, b*)*, c*, a), (b* || c*)",
            "(a, (b* || c*)) @ (b, c), (a || b*), c",
            "((a @ b, c*)*, (b || c)) @ (a @ b), a*",
        ] {
            for ways in graph(expression).ways {
                let mut seen = Set::EMPTY;
                for way in ways {
                    if let Next::OneOf(letters) = way.next {
                        assert!(!seen.meets(&letters), "{expression}");
                        seen.insert_all(&letters);
                    }
                }
            }
        }
    }
}

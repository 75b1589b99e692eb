//! Random small texts against the meaning written down as directly as can be.
//!
//! What can come first, last and next is found by listing all runs of letters
//! an expression allows (each star up to two rounds); whether words fit, by
//! following every branch with what each of its starts still has to do; which
//! rows are touched, by asking of each branch what it can have ended and what
//! it can begin; which letters are met, by listing those that the branches had;
//! whether a limit is kept, by going over all ticks of its window. All of it
//! takes far too long for large texts and shares nothing with the library.
//!
//! One test draws any texts, another one texts and words with which starts of
//! a thread often overlap, and a third one limits for such texts.

mod common;

use std::collections::BTreeSet;
use std::ptr;
use std::rc::Rc;

use common::Numbers;
use second::{Answer, Watch};

// The texts: wires a, b, c (bits 0 to 2) and D (bits 3 and 4), stores s and t,
// a define for what two wires were before.

const DECLARED: &str =
    "input a; input b; input c; input D[1:0]; internal s = 0; internal t[1:0] = 2; \
     define held = c == past(c) & D == past(D); ";
const FIRST_VALUES: Stores = [0, 2];
const WORDS: u64 = 32;

type Stores = [u64; 2];

/// Whether a literal holds: from the word, the word before and the stores.
type Holds = fn(u64, u64, &Stores) -> bool;

struct Literal {
    text: &'static str,
    /// Whether only the word decides it, so that it counts for the shape.
    word_decides: bool,
    holds: Holds,
}

const fn wire(text: &'static str, holds: Holds) -> Literal {
    Literal {
        text,
        word_decides: true,
        holds,
    }
}

const fn other(text: &'static str, holds: Holds) -> Literal {
    Literal {
        text,
        word_decides: false,
        holds,
    }
}

/// Those that only the word decides.
static WIRE_LITERALS: [Literal; 12] = [
    wire("a", |w, _, _| w & 1 == 1),
    wire("!a", |w, _, _| w & 1 == 0),
    wire("b", |w, _, _| w & 2 == 2),
    wire("!b", |w, _, _| w & 2 == 0),
    wire("c", |w, _, _| w & 4 == 4),
    wire("!c[0]", |w, _, _| w & 4 == 0),
    wire("D == 0", |w, _, _| w >> 3 == 0),
    wire("D == 1", |w, _, _| w >> 3 == 1),
    wire("D == 2", |w, _, _| w >> 3 == 2),
    wire("D == 3", |w, _, _| w >> 3 == 3),
    wire("D[1]", |w, _, _| w & 16 == 16),
    wire("!D[0]", |w, _, _| w & 8 == 0),
];

/// Those that need more: at most two of them stand in a letter.
static OTHER_LITERALS: [Literal; 8] = [
    other("a == s", |w, _, s| w & 1 == s[0]),
    other("s == 1", |_, _, s| s[0] == 1),
    other("D == t", |w, _, s| w >> 3 == s[1]),
    other("t == 2", |_, _, s| s[1] == 2),
    other("a == past(a)", |w, p, _| w & 1 == p & 1),
    other("b == past(b)", |w, p, _| w & 2 == p & 2),
    other("D == past(D)", |w, p, _| w >> 3 == p >> 3),
    other("held", |w, p, _| w & 4 == p & 4 && w >> 3 == p >> 3),
];

struct Write {
    text: &'static str,
    store: usize,
    value: fn(u64) -> u64,
}

static WRITES: [Write; 4] = [
    Write {
        text: "s <- a;",
        store: 0,
        value: |w| w & 1,
    },
    Write {
        text: "s <- 1;",
        store: 0,
        value: |_| 1,
    },
    Write {
        text: "t <- D;",
        store: 1,
        value: |w| w >> 3,
    },
    Write {
        text: "t <- 3;",
        store: 1,
        value: |_| 3,
    },
];

#[derive(Clone)]
struct Letter {
    literals: Vec<&'static Literal>,
    writes: Vec<&'static Write>,
    /// The production it is a copy of; else it is written out.
    name: Option<String>,
}

impl Letter {
    /// A random letter, only now and then an impossible one.
    fn random(numbers: &mut Numbers) -> Letter {
        let mut letter = Letter::random_wires(numbers);
        while letter.is_impossible() && numbers.below(20) != 0 {
            letter = Letter::random_wires(numbers);
        }
        let count = numbers.below(8).saturating_sub(5);
        letter
            .literals
            .extend((0..count).map(|_| &OTHER_LITERALS[numbers.below(8)]));
        let count = numbers.below(6).saturating_sub(3);
        letter.writes = (0..count).map(|_| &WRITES[numbers.below(4)]).collect();
        letter
    }

    fn random_wires(numbers: &mut Numbers) -> Letter {
        let count = 1 + numbers.below(2);
        let literals = (0..count)
            .map(|_| &WIRE_LITERALS[numbers.below(12)])
            .collect();
        Letter {
            literals,
            writes: Vec::new(),
            name: None,
        }
    }

    /// A random letter that many words meet.
    fn easy(numbers: &mut Numbers) -> Letter {
        let mut literals = vec![&WIRE_LITERALS[numbers.below(6)]];
        if numbers.below(4) == 0 {
            literals.push(&OTHER_LITERALS[numbers.below(8)]);
        }
        let count = numbers.below(4).saturating_sub(2);
        let writes = (0..count).map(|_| &WRITES[numbers.below(4)]).collect();
        Letter {
            literals,
            writes,
            name: None,
        }
    }

    /// How it stands in an expression.
    fn text(&self) -> String {
        self.name.clone().unwrap_or_else(|| self.written_out())
    }

    /// The production it is a copy of, if it is one.
    fn production(&self) -> Option<String> {
        let name = self.name.as_ref()?;
        Some(format!("{name} -> {}; ", self.written_out()))
    }

    fn written_out(&self) -> String {
        let literals: Vec<_> = self.literals.iter().map(|literal| literal.text).collect();
        let writes: String = self.writes.iter().map(|write| write.text).collect();
        let braces = if writes.is_empty() {
            String::new()
        } else {
            format!("{{{writes}}}")
        };
        literals.join(" & ") + &braces
    }

    fn meets(&self, word: u64, before: u64, stores: &Stores) -> bool {
        self.literals
            .iter()
            .all(|literal| (literal.holds)(word, before, stores))
    }

    fn is_impossible(&self) -> bool {
        (0..WORDS).all(|word| !self.wires_meet(word))
    }

    fn wires_meet(&self, word: u64) -> bool {
        let mut wires = self.literals.iter().filter(|literal| literal.word_decides);
        wires.all(|literal| (literal.holds)(word, 0, &[0, 0]))
    }
}

#[derive(PartialEq)]
enum Expr {
    Letter(usize),
    Star(Box<Expr>),
    Sequence(Box<Expr>, Box<Expr>),
    Choice(Box<Expr>, Box<Expr>),
    Pipeline(Box<Expr>, Box<Expr>),
}

use Expr::{Choice, Pipeline, Sequence, Star};

/// What random expressions are like.
struct Odds {
    /// One part in so many is starred.
    stars: usize,
    /// How often the other operators come up, beside each other.
    sequences: usize,
    choices: usize,
    pipelines: usize,
    /// So many numbers of letters are drawn for a left operand, which has the
    /// least of them.
    lefts: usize,
}

const ANY: Odds = Odds {
    stars: 5,
    sequences: 2,
    choices: 1,
    pipelines: 2,
    lefts: 1,
};

const MANY_THREADS: Odds = Odds {
    stars: 4,
    sequences: 2,
    choices: 3,
    pipelines: 4,
    lefts: 2,
};

impl Odds {
    fn operator(&self, numbers: &mut Numbers) -> fn(Box<Expr>, Box<Expr>) -> Expr {
        let first_pipeline = self.sequences + self.choices;
        match numbers.below(first_pipeline + self.pipelines) {
            number if number < self.sequences => Sequence,
            number if number < first_pipeline => Choice,
            _ => Pipeline,
        }
    }
}

impl Expr {
    /// A random expression of so many letters, numbered on from `begin`.
    fn random(numbers: &mut Numbers, odds: &Odds, begin: usize, letters: usize) -> Expr {
        if numbers.below(odds.stars) == 0 {
            return Star(Box::new(Expr::random_unstarred(
                numbers, odds, begin, letters,
            )));
        }
        Expr::random_unstarred(numbers, odds, begin, letters)
    }

    fn random_unstarred(numbers: &mut Numbers, odds: &Odds, begin: usize, letters: usize) -> Expr {
        if letters == 1 {
            return Expr::Letter(begin);
        }
        let lefts = (0..odds.lefts).map(|_| 1 + numbers.below(letters - 1));
        let cut = lefts.min().expect("there is at least one");
        let left = Box::new(Expr::random(numbers, odds, begin, cut));
        let right = Box::new(Expr::random(numbers, odds, begin + cut, letters - cut));
        odds.operator(numbers)(left, right)
    }

    /// A copy with so much higher letter numbers.
    fn copy(&self, higher: usize) -> Expr {
        let copy = |part: &Expr| Box::new(part.copy(higher));
        match self {
            Expr::Letter(number) => Expr::Letter(number + higher),
            Star(body) => Star(copy(body)),
            Sequence(e, f) => Sequence(copy(e), copy(f)),
            Choice(e, f) => Choice(copy(e), copy(f)),
            Pipeline(e, f) => Pipeline(copy(e), copy(f)),
        }
    }

    /// The sign between its operands, if it has two.
    fn sign(&self) -> &'static str {
        match self {
            Expr::Letter(_) | Star(_) => "",
            Sequence(..) => ",",
            Choice(..) => "||",
            Pipeline(..) => "@",
        }
    }

    fn text(&self, letters: &[Letter]) -> String {
        let inner = |part: &Expr| part.text(letters);
        match self {
            Expr::Letter(number) => letters[*number].text(),
            Star(body) => format!("({})*", inner(body)),
            Sequence(e, f) | Choice(e, f) | Pipeline(e, f) => {
                format!("({}) {} ({})", inner(e), self.sign(), inner(f))
            }
        }
    }

    fn operands(&self) -> Vec<&Expr> {
        match self {
            Expr::Letter(_) => vec![],
            Star(body) => vec![body],
            Sequence(e, f) | Choice(e, f) | Pipeline(e, f) => vec![e, f],
        }
    }

    /// This part and all parts within it.
    fn parts(&self) -> Vec<&Expr> {
        let mut parts = vec![self];
        for operand in self.operands() {
            parts.extend(operand.parts());
        }
        parts
    }

    /// All threads within this part.
    fn threads(&self) -> Vec<&Expr> {
        let parts = self.parts().into_iter();
        let threads = parts.filter_map(|part| match part {
            Pipeline(_, f) => Some(&**f),
            _ => None,
        });
        threads.collect()
    }

    /// Whether it has a thread that can require letters at two ticks.
    fn has_long_thread(&self) -> bool {
        let is_long = |thread: &&Expr| thread.runs().iter().any(|run| run.len() > 1);
        self.threads().iter().any(is_long)
    }

    fn first_letter(&self) -> usize {
        match self {
            Expr::Letter(number) => *number,
            _ => self.operands()[0].first_letter(),
        }
    }

    /// All runs of letters that fit the part, threads left out.
    fn runs(&self) -> BTreeSet<Vec<usize>> {
        match self {
            Expr::Letter(number) => BTreeSet::from([vec![*number]]),
            Star(body) => {
                let once = body.runs();
                let mut runs = joined(&once, &once);
                runs.extend(once);
                runs.insert(vec![]);
                runs
            }
            Sequence(e, f) => joined(&e.runs(), &f.runs()),
            Choice(e, f) => e.runs().into_iter().chain(f.runs()).collect(),
            Pipeline(e, _) => {
                // Never hollow; if e is, that alone is refused.
                let mut runs = e.runs();
                runs.remove(&vec![]);
                runs
            }
        }
    }

    /// No fewer than there are runs.
    fn count_runs(&self) -> usize {
        match self {
            Expr::Letter(_) => 1,
            Star(body) => {
                let once = body.count_runs();
                once.saturating_mul(once.saturating_add(1))
                    .saturating_add(1)
            }
            Sequence(e, f) => e.count_runs().saturating_mul(f.count_runs()),
            Choice(e, f) => e.count_runs().saturating_add(f.count_runs()),
            Pipeline(e, f) => e.count_runs().max(f.count_runs()),
        }
    }

    fn is_hollow(&self) -> bool {
        self.runs().contains(&vec![])
    }
}

fn joined(front: &BTreeSet<Vec<usize>>, back: &BTreeSet<Vec<usize>>) -> BTreeSet<Vec<usize>> {
    front
        .iter()
        .flat_map(|e| back.iter().map(move |f| [&e[..], &f[..]].concat()))
        .collect()
}

// Shape, by listing.

/// The number and letter a monitor is refused with.
fn shape_fault(monitor: &Expr, letters: &[Letter]) -> Option<(u8, usize)> {
    let all = monitor.parts();
    let all_letters = all.iter().filter_map(|part| match part {
        Expr::Letter(number) => Some(*number),
        _ => None,
    });
    if let Some(letter) = all_letters
        .filter(|letter| letters[*letter].is_impossible())
        .min()
    {
        return Some((9, letter));
    }

    let mut must_not_be_hollow = vec![monitor];
    let mut threads = Vec::new();
    for part in &all {
        match part {
            Star(body) => must_not_be_hollow.push(body),
            Pipeline(e, f) => {
                must_not_be_hollow.extend([&**e, &**f]);
                threads.push(&**f);
            }
            _ => {}
        }
    }
    let hollow = must_not_be_hollow.iter().filter(|part| part.is_hollow());
    if let Some(letter) = hollow.map(|part| part.first_letter()).min() {
        return Some((10, letter));
    }

    let mut open_ends = BTreeSet::new();
    for thread in &threads {
        let runs = thread.runs();
        let followed: BTreeSet<usize> = runs
            .iter()
            .flat_map(|run| run[..run.len() - 1].iter().copied())
            .collect();
        let last: BTreeSet<usize> = runs.iter().map(|run| run[run.len() - 1]).collect();
        open_ends.extend(last.intersection(&followed).copied());
    }
    if let Some(letter) = open_ends.first() {
        return Some((11, *letter));
    }

    // The monitor goes round: two rounds show what follows its last letters.
    let mut all_runs = joined(&monitor.runs(), &monitor.runs());
    let mut side_by_side: BTreeSet<(usize, usize)> = pairs(all_runs.iter().map(|run| run[0]));
    for thread in &threads {
        let runs = thread.runs();
        side_by_side.extend(pairs(runs.iter().map(|run| run[0])));
        all_runs.extend(runs);
    }
    for letter in 0..letters.len() {
        let next = all_runs.iter().flat_map(|run| run.windows(2));
        side_by_side.extend(pairs(next.filter(|two| two[0] == letter).map(|two| two[1])));
    }
    let one_word = |e: usize, f: usize| {
        (0..WORDS).any(|w| letters[e].wires_meet(w) && letters[f].wires_meet(w))
    };
    let forks = side_by_side.iter().filter(|(e, f)| one_word(*e, *f));
    forks.map(|(e, _)| *e).min().map(|letter| (12, letter))
}

/// All pairs of two different letters, the lower one first.
fn pairs(letters: impl Iterator<Item = usize>) -> BTreeSet<(usize, usize)> {
    let letters: BTreeSet<usize> = letters.collect();
    let with = |e: usize| {
        letters
            .range(e + 1..)
            .map(move |f| (e, *f))
            .collect::<Vec<_>>()
    };
    letters.iter().flat_map(|e| with(*e)).collect()
}

// Fit, branch by branch.

/// What has to fit from some tick on, for the monitor itself or for one start
/// of a thread.
#[derive(PartialEq)]
enum Ahead<'e> {
    /// A start of this thread is over: anything may come.
    EndOf(&'e Expr),
    TheMonitorAgain,
    Part(&'e Expr, Rc<Ahead<'e>>),
    /// This part ends here.
    Left(&'e Expr, Rc<Ahead<'e>>),
    /// Another round of a star with this body, or what follows the star.
    Rounds(&'e Expr, Rc<Ahead<'e>>),
    ThreadBeside(&'e Expr, Rc<Ahead<'e>>),
}

impl<'e> Ahead<'e> {
    /// The thread of which this is the rest of a start; none for the monitor
    /// itself.
    fn thread(&self) -> Option<&'e Expr> {
        match self {
            Ahead::EndOf(thread) => Some(thread),
            Ahead::TheMonitorAgain => None,
            Ahead::Part(_, then)
            | Ahead::Left(_, then)
            | Ahead::Rounds(_, then)
            | Ahead::ThreadBeside(_, then) => then.thread(),
        }
    }

    /// Whether this is the rest of a start of this very thread.
    fn is_of(&self, thread: &Expr) -> bool {
        self.thread().is_some_and(|own| ptr::eq(own, thread))
    }

    /// Whether this requires no more letters of its own.
    fn is_over(&self) -> bool {
        match self {
            Ahead::EndOf(_) => true,
            Ahead::TheMonitorAgain | Ahead::Part(..) | Ahead::Rounds(..) => false,
            Ahead::Left(_, then) | Ahead::ThreadBeside(_, then) => then.is_over(),
        }
    }
}

/// What a branch does at one tick: the letter of the monitor itself and that
/// of each start that requires one, each with what is ahead of it. Two starts
/// in the same place have two letters here.
type Doing<'e> = Vec<(usize, Rc<Ahead<'e>>)>;

/// All ways to fit what is ahead with the letters met at this tick.
fn ways<'e>(ahead: &Ahead<'e>, whole: &'e Expr, met: &dyn Fn(usize) -> bool) -> Vec<Doing<'e>> {
    let part =
        |part: &'e Expr, ahead: Ahead<'e>| ways(&Ahead::Part(part, Rc::new(ahead)), whole, met);
    match ahead {
        Ahead::EndOf(_) => vec![vec![]],
        Ahead::TheMonitorAgain => part(whole, Ahead::TheMonitorAgain),
        Ahead::ThreadBeside(thread, then) => {
            crossed(&part(thread, Ahead::EndOf(thread)), &ways(then, whole, met))
        }
        Ahead::Left(_, then) => ways(then, whole, met),
        Ahead::Rounds(body, then) => {
            let mut either = ways(then, whole, met);
            either.extend(part(body, Ahead::Rounds(body, then.clone())));
            either
        }
        Ahead::Part(expr, then) => {
            let then = Rc::new(Ahead::Left(expr, then.clone()));
            match expr {
                Expr::Letter(number) if met(*number) => vec![vec![(*number, then)]],
                Expr::Letter(_) => vec![],
                Sequence(e, f) => part(e, Ahead::Part(f, then)),
                Choice(e, f) => {
                    let mut either = ways(&Ahead::Part(e, then.clone()), whole, met);
                    either.extend(ways(&Ahead::Part(f, then), whole, met));
                    either
                }
                Star(e) => ways(&Ahead::Rounds(e, then), whole, met),
                Pipeline(e, f) => part(e, Ahead::ThreadBeside(f, then)),
            }
        }
    }
}

/// The rows of a monitor that are asked and those that are left. A row is the
/// place of its part in memory.
#[derive(Default)]
struct Touched {
    asked: BTreeSet<*const Expr>,
    left: BTreeSet<*const Expr>,
}

impl Touched {
    /// Adds what is asked or left before the next letter of what is ahead, in
    /// whichever way a branch goes on. Words have no part in it.
    fn add<'e>(&mut self, ahead: &Ahead<'e>, whole: &'e Expr) {
        match ahead {
            Ahead::EndOf(_) => (),
            Ahead::TheMonitorAgain => self.begin(whole, Ahead::TheMonitorAgain, whole),
            Ahead::ThreadBeside(thread, then) => {
                self.begin(thread, Ahead::EndOf(thread), whole);
                self.add(then, whole);
            }
            Ahead::Left(part, then) => {
                self.left.insert(*part);
                self.add(then, whole);
            }
            Ahead::Rounds(body, then) => {
                self.add(then, whole);
                self.begin(body, Ahead::Rounds(body, then.clone()), whole);
            }
            Ahead::Part(expr, then) => {
                self.asked.insert(*expr);
                let then = Rc::new(Ahead::Left(expr, then.clone()));
                match expr {
                    Expr::Letter(_) => (),
                    Sequence(e, f) => self.begin(e, Ahead::Part(f, then), whole),
                    Choice(e, f) => {
                        self.add(&Ahead::Part(e, then.clone()), whole);
                        self.add(&Ahead::Part(f, then), whole);
                    }
                    Star(e) => self.add(&Ahead::Rounds(e, then), whole),
                    Pipeline(e, f) => self.begin(e, Ahead::ThreadBeside(f, then), whole),
                }
            }
        }
    }

    fn begin<'e>(&mut self, part: &'e Expr, then: Ahead<'e>, whole: &'e Expr) {
        self.add(&Ahead::Part(part, Rc::new(then)), whole);
    }

    fn count(&self) -> usize {
        self.asked.len() + self.left.len()
    }
}

/// Each of these together with each of those.
fn crossed<'e>(these: &[Doing<'e>], those: &[Doing<'e>]) -> Vec<Doing<'e>> {
    let mut both: Vec<Doing<'e>> = Vec::new();
    for this in these {
        for that in those {
            let doing = [&this[..], &that[..]].concat();
            if !both.contains(&doing) {
                both.push(doing);
            }
        }
    }
    both
}

/// Two starts of one thread that both require a letter at the same tick.
struct Clash<'e> {
    thread: &'e Expr,
    letters: [usize; 2],
}

/// The clash for which a branch does not fit a tick, if there is one. If a
/// start did not have the letter it requires, the branch would not be here.
fn clash<'e>(doing: &Doing<'e>) -> Option<Clash<'e>> {
    doing
        .iter()
        .enumerate()
        .find_map(|(count, (letter, ahead))| {
            let thread = ahead.thread()?;
            let mut others = doing[..count].iter();
            let (other, _) = others.find(|(_, ahead)| ahead.is_of(thread))?;
            Some(Clash {
                thread,
                letters: [*other, *letter],
            })
        })
}

/// What becomes of the branches of a monitor at one tick.
#[derive(Default)]
struct Moved<'e> {
    fitting: Vec<Doing<'e>>,
    /// Of each branch that has all its letters met and yet does not fit.
    clashes: Vec<Clash<'e>>,
}

/// Moves the branches of a monitor over one more tick.
fn moved<'e>(branches: &[Doing<'e>], whole: &'e Expr, met: &dyn Fn(usize) -> bool) -> Moved<'e> {
    let mut moved = Moved::default();
    for branch in branches {
        let mut found = vec![vec![]];
        for (_, ahead) in branch {
            found = crossed(&found, &ways(ahead, whole, met));
        }
        for doing in found {
            match clash(&doing) {
                Some(clash) => moved.clashes.push(clash),
                None if moved.fitting.contains(&doing) => (),
                None => moved.fitting.push(doing),
            }
        }
    }
    moved
}

/// An expression with more runs of letters takes too long.
const MOST_RUNS: usize = 60;

struct Monitor {
    expr: Expr,
    letters: Vec<Letter>,
    /// Whether both operands are copies of one production.
    doubled: bool,
}

impl Monitor {
    fn random(numbers: &mut Numbers) -> Monitor {
        let count = 1 + numbers.below(6);
        let letters = (0..count).map(|_| Letter::random(numbers)).collect();
        let mut expr = Expr::random(numbers, &ANY, 0, count);
        while expr.count_runs() > MOST_RUNS {
            expr = Expr::random(numbers, &ANY, 0, count);
        }
        Monitor {
            expr,
            letters,
            doubled: false,
        }
    }

    /// A random monitor that is accepted and has starts that can overlap.
    fn with_threads(numbers: &mut Numbers) -> Monitor {
        loop {
            let doubled = numbers.below(4) == 0;
            let count = if doubled { 2 } else { 3 } + numbers.below(4);
            let mut expr = Expr::random(numbers, &MANY_THREADS, 0, count);
            if doubled {
                let join = [Sequence, Pipeline][numbers.below(2)];
                let copy = expr.copy(count);
                expr = join(Box::new(expr), Box::new(copy));
            }
            if expr.count_runs() > MOST_RUNS || !expr.has_long_thread() {
                continue;
            }
            if let Some(letters) = accepted_letters(numbers, &expr, count, doubled) {
                return Monitor {
                    expr,
                    letters,
                    doubled,
                };
            }
        }
    }

    /// How many letters stand in the text.
    fn written_letters(&self) -> usize {
        if self.doubled {
            self.letters.len() / 2
        } else {
            self.letters.len()
        }
    }

    /// Has some letters be copies of productions of their own, of which there is
    /// at least one.
    fn name_letters(&mut self, number: usize, numbers: &mut Numbers) {
        let count = self.written_letters();
        let always = numbers.below(count);
        for letter in 0..count {
            if letter == always || numbers.below(3) == 0 {
                let name = format!("x{number}_{letter}");
                for copy in (letter..self.letters.len()).step_by(count) {
                    self.letters[copy].name = Some(name.clone());
                }
            }
        }
    }

    /// The names of the productions its letters are copies of.
    fn names(&self) -> impl Iterator<Item = &String> {
        let letters = &self.letters[..self.written_letters()];
        letters.iter().filter_map(|letter| letter.name.as_ref())
    }

    /// The production of this monitor, with what stands above it.
    fn text(&self, number: usize) -> String {
        let letters = &self.letters[..self.written_letters()];
        let named: String = letters.iter().filter_map(Letter::production).collect();
        if self.doubled {
            let half = self.expr.operands()[0].text(&self.letters);
            let sign = self.expr.sign();
            format!("{named}t{number} -> {half}; p{number} -> t{number} {sign} t{number}; ")
        } else {
            format!("{named}p{number} -> {}; ", self.expr.text(&self.letters))
        }
    }
}

/// A limit on the copies of a production.
struct Limit {
    name: String,
    most: usize,
    window: usize,
}

impl Limit {
    fn random(names: &[&String], numbers: &mut Numbers) -> Limit {
        let most = numbers.below(3);
        Limit {
            name: names[numbers.below(names.len())].clone(),
            most,
            window: most + 1 + numbers.below(4),
        }
    }

    fn text(&self) -> String {
        let Limit { name, most, window } = self;
        format!("limit {name} to {most} in {window}; ")
    }

    /// Whether one of the letters met, monitor by monitor, counts.
    fn counts(&self, monitors: &[Monitor], met: &[BTreeSet<usize>]) -> bool {
        let name = Some(&self.name);
        let mut monitors = monitors.iter().zip(met);
        monitors.any(|(monitor, met)| {
            let mut names = met.iter().map(|letter| &monitor.letters[*letter].name);
            names.any(|own| own.as_ref() == name)
        })
    }

    /// Whether the last tick is beyond the limit, from what is known of each
    /// tick: whether a letter that counts was met there.
    fn is_exceeded(&self, ticks: &[bool]) -> bool {
        let window = ticks.iter().rev().take(self.window);
        window.filter(|counts| **counts).count() > self.most
    }
}

/// What a text says.
struct Rules {
    monitors: Vec<Monitor>,
    limits: Vec<Limit>,
}

impl Rules {
    fn unlimited(monitors: Vec<Monitor>) -> Rules {
        let limits = Vec::new();
        Rules { monitors, limits }
    }

    /// Adds one to three limits on letters of these monitors.
    fn limited(mut monitors: Vec<Monitor>, numbers: &mut Numbers) -> Rules {
        for (number, monitor) in monitors.iter_mut().enumerate() {
            monitor.name_letters(number, numbers);
        }
        let names: Vec<&String> = monitors.iter().flat_map(Monitor::names).collect();
        let count = 1 + numbers.below(3);
        let limits = (0..count).map(|_| Limit::random(&names, numbers)).collect();
        Rules { monitors, limits }
    }
}

/// Random letters, so many or twice so many, with which an expression is
/// accepted; none if they are not soon found.
fn accepted_letters(
    numbers: &mut Numbers,
    expr: &Expr,
    count: usize,
    twice: bool,
) -> Option<Vec<Letter>> {
    for _ in 0..20 {
        let mut letters: Vec<Letter> = (0..count).map(|_| Letter::easy(numbers)).collect();
        if twice {
            letters.extend_from_within(..);
        }
        match shape_fault(expr, &letters) {
            None => return Some(letters),
            // No other letters can help.
            Some((10 | 11, _)) => return None,
            Some(_) => (),
        }
    }
    None
}

/// All monitors between two ticks.
#[derive(Clone)]
struct State<'e> {
    branches: Vec<Vec<Doing<'e>>>,
    stores: Stores,
    before: u64,
    /// For each monitor, the letters met at the tick before.
    met: Vec<BTreeSet<usize>>,
    /// For each limit and each tick so far, whether a letter that counts was
    /// met there.
    counted: Vec<Vec<bool>>,
}

/// The lowest monitor that no longer fits, or 32 and the lowest limit that the
/// tick is beyond.
struct Fault<'e> {
    number: usize,
    clashes: Vec<Clash<'e>>,
}

impl<'e> State<'e> {
    fn first(rules: &Rules) -> Self {
        let monitors = rules.monitors.len();
        // The letter of this entry is never looked at.
        let begin: Doing = vec![(usize::MAX, Rc::new(Ahead::TheMonitorAgain))];
        State {
            branches: vec![vec![begin]; monitors],
            stores: FIRST_VALUES,
            before: 0,
            met: vec![BTreeSet::new(); monitors],
            counted: vec![Vec::new(); rules.limits.len()],
        }
    }

    /// The state after a word, if all monitors fit and no limit is exceeded.
    fn after(&self, rules: &'e Rules, word: u64) -> Result<Self, Fault<'e>> {
        let next = self.after_monitors(rules, word)?;
        let mut limits = rules.limits.iter().zip(&next.counted);
        match limits.position(|(limit, ticks)| limit.is_exceeded(ticks)) {
            None => Ok(next),
            Some(limit) => Err(Fault {
                number: 32 + limit,
                clashes: Vec::new(),
            }),
        }
    }

    /// The state after a word, if all monitors fit, whatever the limits say.
    fn after_monitors(&self, rules: &'e Rules, word: u64) -> Result<Self, Fault<'e>> {
        let Rules { monitors, limits } = rules;
        let mut next = State {
            branches: Vec::new(),
            stores: self.stores,
            before: word,
            met: Vec::new(),
            counted: self.counted.clone(),
        };
        for (number, monitor) in monitors.iter().enumerate() {
            let met =
                |letter: usize| monitor.letters[letter].meets(word, self.before, &self.stores);
            let moved = moved(&self.branches[number], &monitor.expr, &met);
            if moved.fitting.is_empty() {
                return Err(Fault {
                    number,
                    clashes: moved.clashes,
                });
            }
            let letters: BTreeSet<usize> = moved
                .fitting
                .iter()
                .flatten()
                .map(|(letter, _)| *letter)
                .collect();
            for write in letters
                .iter()
                .flat_map(|letter| &monitor.letters[*letter].writes)
            {
                next.stores[write.store] = (write.value)(word);
            }
            next.branches.push(moved.fitting);
            next.met.push(letters);
        }
        for (limit, ticks) in limits.iter().zip(&mut next.counted) {
            ticks.push(limit.counts(monitors, &next.met));
        }
        Ok(next)
    }

    /// How many rows of all monitors the next take touches, and how many it
    /// would be if rows that several starts reach were counted for each.
    fn touched(&self, monitors: &'e [Monitor]) -> (usize, usize) {
        let (mut once, mut for_each) = (0, 0);
        for (monitor, branches) in monitors.iter().zip(&self.branches) {
            let mut all = Touched::default();
            for (_, ahead) in branches.iter().flatten() {
                let mut alone = Touched::default();
                alone.add(ahead, &monitor.expr);
                for_each += alone.count();
                all.add(ahead, &monitor.expr);
            }
            once += all.count();
        }
        (once, for_each)
    }

    /// All starts of threads in all branches that had a letter.
    fn starts(&self) -> impl Iterator<Item = (&'e Expr, &Ahead<'e>)> {
        let starts = self.branches.iter().flatten().flatten();
        starts.filter_map(|(_, ahead)| Some((ahead.thread()?, &**ahead)))
    }

    /// How many of them require another one.
    fn going_on(&self) -> usize {
        self.starts().filter(|(_, ahead)| !ahead.is_over()).count()
    }

    /// Whether a thread that is over now begins at the tick of `next`.
    fn hands_over_to(&self, next: &State<'e>) -> bool {
        let mut over = self.starts().filter(|(_, ahead)| ahead.is_over());
        over.any(|(thread, _)| next.starts().any(|(_, ahead)| ahead.is_of(thread)))
    }
}

// The comparison.

/// What was seen, to know that the random texts reach everything.
#[derive(Default, Debug)]
struct Seen {
    accepted: usize,
    refused: [usize; 13],
    ok: usize,
    bad: usize,
    written: usize,
    in_threads: usize,
    /// Ticks at which a thread begins right behind its own last letter.
    handed_over: usize,
    looks: usize,
    bad_looks: usize,
    /// Those of them that nothing but a clash makes bad.
    clashes: usize,
    /// Those with both starts at the same letter.
    in_one_place: usize,
    /// Those of a thread inside a thread.
    in_inner_threads: usize,
    /// Takes at which several starts reach the same row.
    touched_twice: usize,
    /// Takes at which a monitor has several letters met.
    met_together: usize,
    /// Looks that are bad by a limit, and those of them by a later one.
    beyond: usize,
    beyond_later: usize,
    /// Takes that are ok though with a window longer by one they were not.
    just_far_enough: usize,
}

impl Seen {
    fn look(&mut self, outcome: &Result<State, Fault>, monitors: &[Monitor]) {
        self.looks += 1;
        let Err(fault) = outcome else {
            return;
        };
        self.bad_looks += 1;
        self.beyond += usize::from(fault.number >= 32);
        self.beyond_later += usize::from(fault.number > 32);
        let Some(clash) = fault.clashes.first() else {
            return;
        };
        self.clashes += 1;
        self.in_one_place += usize::from(clash.letters[0] == clash.letters[1]);
        let outer = monitors[fault.number].expr.threads().into_iter();
        let mut inner = outer.flat_map(Expr::threads);
        self.in_inner_threads += usize::from(inner.any(|thread| ptr::eq(thread, clash.thread)));
    }

    fn take(&mut self, before: &State, after: &State) {
        self.ok += 1;
        self.written += usize::from(after.stores != before.stores);
        self.in_threads += after.starts().count();
        self.handed_over += usize::from(before.hands_over_to(after));
        self.met_together += usize::from(after.met.iter().any(|met| met.len() > 1));
    }

    /// Sees how near an ok take was to a limit.
    fn near_limits(&mut self, limits: &[Limit], after: &State) {
        let mut limits = limits.iter().zip(&after.counted);
        let near = limits.any(|(limit, ticks)| {
            let longer = Limit {
                name: limit.name.clone(),
                most: limit.most,
                window: limit.window + 1,
            };
            longer.is_exceeded(ticks) && ticks.last() == Some(&true)
        });
        self.just_far_enough += usize::from(near);
    }
}

/// The ticks at which each letter of each monitor was met, and how many
/// letters were met at all ticks.
struct Totals {
    letters: Vec<Vec<u32>>,
    at_ticks: usize,
}

impl Totals {
    fn new(monitors: &[Monitor]) -> Totals {
        let none = |monitor: &Monitor| vec![0; monitor.letters.len()];
        Totals {
            letters: monitors.iter().map(none).collect(),
            at_ticks: 0,
        }
    }

    /// Adds the tick before this state.
    fn add(&mut self, state: &State) {
        for (letters, met) in self.letters.iter_mut().zip(&state.met) {
            met.iter().for_each(|letter| letters[*letter] += 1);
            self.at_ticks += met.len();
        }
    }

    fn check(&self, watch: &Watch, text: &str, words: &[usize]) {
        assert_eq!(watch.totals(), self.letters, "{text} {words:?}");
        let sum: u32 = watch.totals().iter().flatten().sum();
        assert_eq!(sum as usize, self.at_ticks, "{text} {words:?}");
    }
}

/// A text that says this.
fn text_of(rules: &Rules) -> String {
    let mut text = String::from(DECLARED);
    let mut names = Vec::new();
    for (number, monitor) in rules.monitors.iter().enumerate() {
        text += &monitor.text(number);
        names.push(format!("p{number}"));
    }
    text.extend(rules.limits.iter().map(Limit::text));
    text + &format!("monitor {};", names.join(", "))
}

/// Opens a text and judges some traces. Most of their words are drawn so many
/// times among those that fit.
fn compare(rules: &Rules, picks: usize, numbers: &mut Numbers, seen: &mut Seen) {
    let text = text_of(rules);
    let monitors = &rules.monitors;
    let faults = monitors
        .iter()
        .map(|monitor| shape_fault(&monitor.expr, &monitor.letters));
    let fault = faults
        .enumerate()
        .find_map(|(number, fault)| Some((number, fault?)));
    match (second::open(text.as_bytes()), fault) {
        (Err(refusal), Some((monitor, (number, letter)))) => {
            assert_eq!(
                refusal.to_string(),
                format!("refused {number} {monitor} {letter}"),
                "{text}"
            );
            seen.refused[usize::from(number)] += 1;
        }
        (Ok(program), None) => {
            let rows: usize = monitors
                .iter()
                .map(|monitor| monitor.expr.parts().len())
                .sum();
            assert_eq!(program.rows() as usize, rows, "{text}");
            seen.accepted += 1;
            for _ in 0..4 {
                run(&program, rules, picks, numbers, seen, &text);
            }
        }
        (Ok(_), Some(fault)) => panic!("accepted despite {fault:?}: {text}"),
        (Err(refusal), None) => panic!("{refusal}: {text}"),
    }
}

fn run(
    program: &second::Program,
    rules: &Rules,
    picks: usize,
    numbers: &mut Numbers,
    seen: &mut Seen,
    text: &str,
) {
    let monitors = &rules.monitors;
    let mut watch = Watch::new(program);
    let mut state = State::first(rules);
    let mut totals = Totals::new(monitors);
    let mut words = Vec::new();
    for _ in 0..10 {
        let mut outcomes: Vec<_> = (0..WORDS).map(|w| state.after(rules, w)).collect();
        for (word, outcome) in outcomes.iter().enumerate() {
            let answer = watch.look(word as u64);
            assert_eq!(answer, expected(outcome), "{text} {words:?} {word}");
            seen.look(outcome, monitors);
        }
        let word = chosen(&outcomes, picks, numbers);
        words.push(word);
        let outcome = outcomes.swap_remove(word);
        let taken = watch.take(word as u64);
        assert_eq!(taken.answer, expected(&outcome), "{text} {words:?}");
        let (touched, for_each) = state.touched(monitors);
        assert_eq!(taken.touched as usize, touched, "{text} {words:?}");
        assert!(taken.touched <= 2 * program.rows(), "{text} {words:?}");
        seen.touched_twice += usize::from(touched < for_each);
        match outcome {
            Ok(next) => {
                assert_eq!(watch.stores(), next.stores, "{text} {words:?}");
                assert_eq!(watch.word_before(), word as u64, "{text} {words:?}");
                assert_eq!(watch.widest(), 1, "{text} {words:?}");
                seen.take(&state, &next);
                seen.near_limits(&rules.limits, &next);
                totals.add(&next);
                totals.check(&watch, text, &words);
                state = next;
            }
            Err(_) => {
                assert_eq!(watch.stores(), state.stores, "{text} {words:?}");
                assert_eq!(watch.word_before(), state.before, "{text} {words:?}");
                totals.check(&watch, text, &words);
                seen.bad += 1;
                return;
            }
        }
    }
}

/// What a look or take of a word answers that has this outcome.
fn expected(outcome: &Result<State, Fault>) -> Answer {
    match outcome {
        Ok(_) => Answer::Ok,
        Err(fault) => Answer::Bad(fault.number),
    }
}

/// A word to take: mostly one that fits, if there is one, and after which the
/// most starts go on.
fn chosen(outcomes: &[Result<State, Fault>], picks: usize, numbers: &mut Numbers) -> usize {
    let fitting: Vec<usize> = (0..outcomes.len())
        .filter(|word| outcomes[*word].is_ok())
        .collect();
    if fitting.is_empty() || numbers.below(16) == 0 {
        return numbers.below(outcomes.len());
    }
    let going_on = |word: &usize| outcomes[*word].as_ref().map_or(0, State::going_on);
    (0..picks)
        .map(|_| fitting[numbers.below(fitting.len())])
        .max_by_key(going_on)
        .expect("there is at least one pick")
}

#[test]
fn random_texts_agree_with_the_direct_meaning() {
    let mut numbers = Numbers(20_240_917);
    let mut seen = Seen::default();
    for _ in 0..20_000 {
        let count = 1 + numbers.below(2);
        let monitors = (0..count).map(|_| Monitor::random(&mut numbers)).collect();
        compare(&Rules::unlimited(monitors), 1, &mut numbers, &mut seen);
    }
    println!("{seen:?}");
    assert!(seen.accepted > 1_000, "{seen:?}");
    assert!(
        seen.refused[9..].iter().all(|count| *count > 100),
        "{seen:?}"
    );
    assert!(seen.ok > 10_000 && seen.bad > 500, "{seen:?}");
    assert!(seen.written > 500 && seen.in_threads > 500, "{seen:?}");
}

#[test]
fn random_texts_whose_threads_overlap_agree_with_the_direct_meaning() {
    let mut numbers = Numbers(5);
    let mut seen = Seen::default();
    for _ in 0..6_000 {
        let count = 1 + numbers.below(2);
        let monitors = (0..count)
            .map(|_| Monitor::with_threads(&mut numbers))
            .collect();
        compare(&Rules::unlimited(monitors), 3, &mut numbers, &mut seen);
    }
    println!("{seen:?}");
    assert_eq!(seen.accepted, 6_000, "{seen:?}");
    assert!(seen.ok > 10_000 && seen.bad > 500, "{seen:?}");
    assert!(seen.clashes > 10_000, "{seen:?}");
    assert!(seen.in_one_place > 500, "{seen:?}");
    assert!(seen.in_inner_threads > 500, "{seen:?}");
    assert!(seen.handed_over > 500, "{seen:?}");
    assert!(seen.touched_twice > 500, "{seen:?}");
    assert!(seen.met_together > 500, "{seen:?}");
}

#[test]
fn random_texts_with_limits_agree_with_the_direct_meaning() {
    let mut numbers = Numbers(7);
    let mut seen = Seen::default();
    for _ in 0..4_000 {
        let count = 1 + numbers.below(2);
        let monitors = (0..count)
            .map(|_| Monitor::with_threads(&mut numbers))
            .collect();
        let rules = Rules::limited(monitors, &mut numbers);
        compare(&rules, 1, &mut numbers, &mut seen);
    }
    println!("{seen:?}");
    assert_eq!(seen.accepted, 4_000, "{seen:?}");
    assert!(seen.ok > 10_000 && seen.bad > 500, "{seen:?}");
    assert!(seen.beyond > 10_000, "{seen:?}");
    assert!(seen.beyond_later > 500, "{seen:?}");
    assert!(seen.just_far_enough > 500, "{seen:?}");
    assert!(seen.met_together > 500, "{seen:?}");
}

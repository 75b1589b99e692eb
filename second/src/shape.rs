//! Opening a rule text: the limit on letters and the shape rules, numbers 8
//! to 12.

use crate::expr::{ExprId, Exprs};
use crate::fit::Monitor;
use crate::graph::{Graph, LetterNo, Next};
use crate::limit;
use crate::parse::{parse, Parsed};
use crate::refusal::{Reason, Refusal};
use crate::set::Set;
use crate::window::Window;

/// An accepted rule text, ready to be watched.
pub struct Program {
    rows: u32,
    letters: u32,
    wires: u32,
    pub(crate) stores: Vec<u64>,
    pub(crate) monitors: Vec<Monitor>,
    /// One for each limit.
    pub(crate) windows: Vec<Window>,
}

impl Program {
    /// One row for each letter and each operator of all monitors.
    pub fn rows(&self) -> u32 {
        self.rows
    }

    /// The letters of all monitors.
    pub fn letters(&self) -> u32 {
        self.letters
    }

    /// How many bits of a word are wires.
    pub fn wires(&self) -> u32 {
        self.wires
    }

    /// How many monitors there are.
    pub fn monitors(&self) -> usize {
        self.monitors.len()
    }

    /// How many limits there are.
    pub fn limits(&self) -> usize {
        self.windows.len()
    }
}

/// Opens a rule text, or says why it is turned away.
pub fn open(text: &[u8]) -> Result<Program, Refusal> {
    let Parsed {
        wires,
        stores,
        exprs,
        limits,
        monitors,
    } = parse(text)?;
    let letters = count_letters(&exprs, &monitors)?;
    let mut rows = 0;
    let mut graphs = Vec::new();
    for (number, &body) in monitors.iter().enumerate() {
        let graph = open_monitor(&exprs, body)
            .map_err(|(reason, letter)| Refusal::at_letter(reason, number, letter as usize))?;
        rows += exprs.measure(body).rows;
        graphs.push(graph);
    }
    let window = |limit| Window::new(limit, &graphs);
    Ok(Program {
        rows,
        letters,
        wires,
        stores,
        windows: limits.into_iter().map(window).collect(),
        monitors: graphs.into_iter().map(Monitor::new).collect(),
    })
}

/// Number 8: all monitors together have at most 256 letters.
fn count_letters(exprs: &Exprs, monitors: &[ExprId]) -> Result<u32, Refusal> {
    let mut sum: u32 = 0;
    for (number, &body) in monitors.iter().enumerate() {
        sum = sum.saturating_add(exprs.measure(body).letters);
        if sum > limit::LETTERS {
            return Err(Refusal::at_letter(Reason::LongRun, number, 0));
        }
    }
    Ok(sum)
}

/// Numbers 9 to 12 of one monitor, in this order, each with its lowest letter.
/// The first two are known before anything is opened.
fn open_monitor(exprs: &Exprs, body: ExprId) -> Result<Graph, (Reason, u32)> {
    let measure = exprs.measure(body);
    if let Some(letter) = measure.impossible {
        return Err((Reason::Impossible, letter));
    }
    if measure.nullable {
        return Err((Reason::Hollow, 0));
    }
    if let Some(letter) = measure.hollow_part {
        return Err((Reason::Hollow, letter));
    }
    let graph = Graph::open(exprs, body);
    if let Some(letter) = open_end(&graph) {
        return Err((Reason::OpenEnd, u32::from(letter)));
    }
    if let Some(letter) = fork(&graph) {
        return Err((Reason::Fork, u32::from(letter)));
    }
    Ok(graph)
}

/// The lowest letter that ends a thread and can also be followed inside it
/// (the specification's "open end"). Whatever comes next after a letter that
/// ends a thread is inside this thread, as nothing leads out of it.
fn open_end(graph: &Graph) -> Option<LetterNo> {
    (0..graph.letters.len())
        .find(|&letter| {
            let ends = graph.ways[letter]
                .iter()
                .any(|way| way.next == Next::Anything);
            ends && !letters_after(graph, letter).is_empty()
        })
        .map(|letter| letter as LetterNo)
}

/// The lowest of two letters side by side whose wire literals one word meets
/// (the specification's "fork").
fn fork(graph: &Graph) -> Option<LetterNo> {
    let clashes = clashes(graph);
    let after_each = (0..graph.letters.len()).map(|letter| letters_after(graph, letter));
    graph
        .first
        .iter()
        .copied()
        .chain(after_each)
        .filter_map(|side_by_side| lowest_clash(&side_by_side, &clashes))
        .min()
}

/// The lowest letter of the set that clashes with another one of it.
fn lowest_clash(side_by_side: &Set, clashes: &[Set]) -> Option<LetterNo> {
    side_by_side
        .iter()
        .find(|&letter| clashes[usize::from(letter)].meets(side_by_side))
}

/// For each letter, the other letters whose wire literals share a word with it.
fn clashes(graph: &Graph) -> Vec<Set> {
    let conditions = || {
        graph
            .letters
            .iter()
            .map(|letter| &letter.condition)
            .enumerate()
    };
    conditions()
        .map(|(mine, condition)| {
            let mut clash = Set::EMPTY;
            for (other, others) in conditions() {
                if other != mine && condition.shares_a_word_with(others) {
                    clash.insert(other as LetterNo);
                }
            }
            clash
        })
        .collect()
}

/// All letters that can come next after a letter.
fn letters_after(graph: &Graph, letter: usize) -> Set {
    let mut after = Set::EMPTY;
    for way in &graph.ways[letter] {
        if let Next::OneOf(letters) = &way.next {
            after.insert_all(letters);
        }
    }
    after
}

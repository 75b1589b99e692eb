//! What is printed of a rule text: lines, the first of them about the text and
//! those at the foot about its letters.

use std::fmt::Display;
use std::io::Write;

use crate::shape::{open, Program};

/// Lines one below the other.
pub struct Lines(Vec<u8>);

impl Lines {
    pub fn put(&mut self, line: impl Display) {
        writeln!(self.0, "{line}").expect("a vector takes every write");
    }

    /// Puts the foot: for each monitor and letter the number of ticks at which
    /// it was met, and last the sum of these.
    pub fn put_foot(&mut self, totals: &[Vec<u32>]) {
        for (monitor, letters) in totals.iter().enumerate() {
            for (letter, count) in letters.iter().enumerate() {
                self.put(format_args!("met {monitor} {letter} {count}"));
            }
        }
        // No more than 256 letters at each of a million ticks.
        let total: u32 = totals.iter().flatten().sum();
        self.put(format_args!("total {total}"));
    }
}

/// The lines of a text: its refusal alone, or its counts and below them what
/// `run` puts.
pub fn lines_of(text: &[u8], run: impl FnOnce(&Program, &mut Lines)) -> Vec<u8> {
    let mut lines = Lines(Vec::new());
    match open(text) {
        Ok(program) => {
            lines.put(format_args!(
                "rows {} letters {}",
                program.rows(),
                program.letters()
            ));
            run(&program, &mut lines);
        }
        Err(refusal) => lines.put(refusal),
    }
    lines.0
}

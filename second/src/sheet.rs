//! The printed sheet: a rule text run over a trace. Unless it is refused, totals
//! stand at its foot.

use crate::lines::{lines_of, Lines};
use crate::record;
use crate::refusal::Refusal;
use crate::shape::Program;
use crate::watch::{Answer, Watch};

/// The whole sheet of a rule text and a trace of records.
pub fn sheet(text: &[u8], trace: &[u8]) -> Vec<u8> {
    lines_of(text, |program, lines| run(program, trace, lines))
}

fn run(program: &Program, trace: &[u8], lines: &mut Lines) {
    let mut watch = Watch::new(program);
    match put_ticks(&mut watch, trace, lines) {
        Ok(()) => lines.put_foot(watch.totals()),
        Err(refusal) => lines.put(refusal),
    }
}

/// Puts a line for each tick up to a bad one, and `clean` if there is none.
fn put_ticks(watch: &mut Watch<'_>, trace: &[u8], lines: &mut Lines) -> Result<(), Refusal> {
    let mut begin = 0;
    let mut word = 0;
    loop {
        let tick = watch.ticks();
        match record::read(trace, begin, word) {
            Ok(None) => {
                lines.put(format_args!("clean {tick}"));
                return Ok(());
            }
            Ok(Some(record)) => (word, begin) = (record.word, record.end),
            // The record reader names a byte, the sheet the tick.
            Err(refusal) => return Err(Refusal::at_tick(refusal.reason, tick)),
        }
        match watch.take(word).answer {
            Answer::Ok => lines.put(format_args!("{tick} {word:016x} ok")),
            Answer::Bad(number) => {
                lines.put(format_args!("{tick} {word:016x} bad {number}"));
                return Ok(());
            }
            Answer::Refused(refusal) => return Err(refusal),
        }
    }
}

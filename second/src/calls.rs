//! Looks and takes put to a watch in turn, and the lines that answer them.
//!
//! A call has nine bytes: `L` for a look or `T` for a take, and its word,
//! lowest byte first. The line of a take ends in the number of rows it touched.
//! At the foot stand the totals of the watch, whatever the last answers were.

use std::fmt;

use crate::lines::lines_of;
use crate::watch::{Answer, Taken, Watch};

/// How many bytes a call has.
const LENGTH: usize = 9;

enum Call {
    Look(u64),
    Take(u64),
}

/// The lines that answer calls to a freshly opened watch: the refusal of a
/// text that is refused, or its counts, a line for each call and the foot. There
/// is no answer if the bytes are not a row of whole calls, whatever the text.
pub fn answer_calls(text: &[u8], calls: &[u8]) -> Option<Vec<u8>> {
    let calls = read(calls)?;
    Some(lines_of(text, |program, lines| {
        let mut watch = Watch::new(program);
        for call in calls {
            match call {
                Call::Look(word) => lines.put(format_args!("look {}", Said(watch.look(word)))),
                Call::Take(word) => {
                    let Taken { answer, touched } = watch.take(word);
                    lines.put(format_args!("take {} touched {touched}", Said(answer)));
                }
            }
        }
        lines.put_foot(watch.totals());
    }))
}

/// All calls of a row; none if one is cut short or neither look nor take.
fn read(row: &[u8]) -> Option<Vec<Call>> {
    row.chunks(LENGTH).map(read_call).collect()
}

fn read_call(bytes: &[u8]) -> Option<Call> {
    let (letter, word) = bytes.split_first()?;
    let word = u64::from_le_bytes(word.try_into().ok()?);
    match letter {
        b'L' => Some(Call::Look(word)),
        b'T' => Some(Call::Take(word)),
        _ => None,
    }
}

/// An answer as it is printed. A refusal has its number alone.
struct Said(Answer);

impl fmt::Display for Said {
    fn fmt(&self, f: &mut fmt::Formatter<'_>) -> fmt::Result {
        match self.0 {
            Answer::Ok => write!(f, "ok"),
            Answer::Bad(number) => write!(f, "bad {number}"),
            Answer::Refused(refusal) => write!(f, "refused {}", refusal.number()),
        }
    }
}

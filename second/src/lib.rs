//! A plain second implementation of the line watch.
//!
//! It is written from the specification alone, so that the product can be
//! compared with it. From rule text to verdict the way is:
//!
//! 1. `token` cuts the text into tokens,
//! 2. `parse` reads the grammar and fills the tables of `letter` and `expr`,
//! 3. `graph` opens a monitor into letters and "what can come next" relations,
//!    and with `rows` finds the rows touched after each letter,
//! 4. `shape` judges the number of letters and the shape rules (numbers 8 to 12),
//! 5. `fit` moves branches of a monitor over one word, and counts the rows they
//!    touch,
//! 6. `window` tells which letters a `limit` of the text counts, and whether it
//!    has been met too often,
//! 7. `watch` keeps the branches, the stores, the totals of the letters and the
//!    ticks of the limits from tick to tick,
//! 8. `record` reads and writes wire records, `sheet` prints what comes of
//!    them, and `calls` what comes of single calls; `lines` is what both print
//!    with.
//!
//! `cases`, `batch` and `stage` are for comparing: files of cases, cases from
//! another program, and cases for another program.
//!
//! ```
//! let text = b"input a; p -> a; monitor p;";
//! let program = second::open(text).unwrap();
//! let mut watch = second::Watch::new(&program);
//! assert_eq!(watch.take(1).answer, second::Answer::Ok);
//! // A look tells what a take would answer, and changes nothing.
//! assert_eq!(watch.look(0), second::Answer::Bad(0));
//! // A take also tells how many rows it touched: the row of a was left here,
//! // and asked again.
//! let taken = watch.take(1);
//! assert_eq!((taken.answer, taken.touched), (second::Answer::Ok, 2));
//! assert_eq!(watch.take(0).answer, second::Answer::Bad(0));
//! // The watch counts at how many ticks each letter of each monitor was met.
//! assert_eq!(watch.totals(), [[2]]);
//! ```

pub mod batch;
pub mod cases;
pub mod record;
pub mod refusal;
pub mod stage;

mod calls;
mod expr;
mod fit;
mod graph;
mod letter;
mod lines;
mod parse;
mod rows;
mod set;
mod shape;
mod sheet;
mod token;
mod watch;
mod window;

pub use calls::answer_calls;
pub use refusal::{Place, Reason, Refusal};
pub use shape::{open, Program};
pub use sheet::sheet;
pub use watch::{Answer, Taken, Watch};

/// The numbers the specification sets as limits.
pub mod limit {
    pub const TEXT_BYTES: usize = 16_384;
    pub const NAME_BYTES: usize = 16;
    pub const NAMES: usize = 128;
    pub const WIRES: u32 = 64;
    pub const STORES: usize = 16;
    pub const MONITORS: usize = 32;
    pub const PARENTHESES: usize = 32;
    pub const LETTERS: u32 = 256;
    pub const STORE_TESTS: usize = 2;
    pub const WRITES: usize = 2;
    /// How many limits a text may declare.
    pub const LIMITS: usize = 8;
    /// How many ticks the window of a limit may have.
    pub const WINDOW: u32 = 1_024;
    pub const TICKS: u32 = 1_000_000;
}

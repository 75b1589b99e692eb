//! The whole way from rule text and records to the printed sheet in memory: one million ticks, its time as a ratio to `second`'s, in one run.
//! Both sides print the same bytes.

use second::{Answer, Watch};
use std::time::Instant;

extern "C" {
    fn linewatch_sheet(text: *const u8, text_length: usize, records: *const u8, records_length: usize, sheet: *mut u8, sheet_length: usize) -> usize;
}

const TICKS: usize = 1_000_000;
const RUNS: usize = 5;

fn proved(text: &[u8], records: &[u8], sheet: &mut [u8]) -> usize {
    unsafe { linewatch_sheet(text.as_ptr(), text.len(), records.as_ptr(), records.len(), sheet.as_mut_ptr(), sheet.len()) }
}

/// Random bits, one draw after the other.
struct Dice(u64);

impl Dice {
    fn roll(&mut self) -> u64 {
        self.0 ^= self.0 << 13;
        self.0 ^= self.0 >> 7;
        self.0 ^= self.0 << 17;
        self.0 >> 3
    }
}

/// How often a word is drawn before there is none.
const TRIES: usize = 256;

/// Words that keep the rules: of those that `drawn` makes of random bits and the word before, the ones that a look finds ok, and behind which another is: a thread
/// that was started while it ran leaves no word that is. Behind the last word the watch may be full, and nothing is asked.
fn words(text: &[u8], drawn: impl Fn(u64, u64) -> u64) -> Vec<u64> {
    let program = second::open(text).expect("the text is accepted");
    let mask = if program.wires() == 64 { u64::MAX } else { (1 << program.wires()) - 1 };
    let mut watch = Watch::new(&program);
    let mut dice = Dice(88_172_645_463_325_252);
    let mut words = Vec::with_capacity(TICKS);
    let mut before = 0;
    while words.len() < TICKS {
        let word = drawn(dice.roll(), before) & mask;
        if watch.look(word) != Answer::Ok {
            continue;
        }
        let mut next = watch.clone();
        next.take(word);
        let last = words.len() + 1 == TICKS;
        if last || (0..TRIES).any(|_| next.look(drawn(dice.roll(), word) & mask) == Answer::Ok) {
            watch = next;
            words.push(word);
            before = word;
        }
    }
    words
}

/// The records of words.
fn records(words: &[u64]) -> Vec<u8> {
    let mut trace = Vec::new();
    let mut before = 0;
    for &word in words {
        let mut record = [0; 9];
        let length = second::record::write(before, word, &mut record).expect("a record has at most 9 bytes");
        trace.extend_from_slice(&record[..length]);
        before = word;
    }
    trace
}

/// Any word.
fn any(dice: u64, _: u64) -> u64 {
    dice
}

/// One of some words.
fn from(pool: &[u64]) -> impl Fn(u64, u64) -> u64 + '_ {
    |dice, _| pool[dice as usize % pool.len()]
}

fn compare(name: &str, text: &[u8], drawn: impl Fn(u64, u64) -> u64) {
    let program = second::open(text).expect("the text is accepted");
    let trace = records(&words(text, drawn));
    let right = second::sheet(text, &trace);
    let mut range = vec![1; 6400 + 64 * TICKS];
    let length = proved(text, &trace, &mut range);
    assert!(range[..length] == right[..], "{name}: the sheets differ");
    let (mut ours, mut theirs) = (f64::MAX, f64::MAX);
    for _ in 0..RUNS {
        let start = Instant::now();
        proved(text, &trace, &mut range);
        ours = ours.min(start.elapsed().as_secs_f64());
        let start = Instant::now();
        std::hint::black_box(second::sheet(text, &trace));
        theirs = theirs.min(start.elapsed().as_secs_f64());
    }
    println!(
        "{name}: {} rows, {} letters, proved {:.3} us a tick, second {:.3} us a tick, ratio {:.2}, proved {:.1} ns a tick and row",
        program.rows(),
        program.letters(),
        ours * 1e6 / TICKS as f64,
        theirs * 1e6 / TICKS as f64,
        ours / theirs,
        ours * 1e9 / TICKS as f64 / f64::from(program.rows())
    );
}

const SAMPLE: &[u8] = b"input SCAN;\ninput CUT;\nline -> SCAN @ (CUT || !CUT, CUT) || !SCAN;\nmonitor line;\n";

/// Seven monitors of three copies of a production in turn. Each copy starts a thread of its own, nine starred letters and one more, and is started again three ticks
/// later.
fn many() -> Vec<u8> {
    let mut text = String::from("input a;\ninput F[3:0];\nthread -> ");
    for k in 0..9 {
        text += &format!("(a & F == {k})*, ");
    }
    text += "a & F == 9;\nturn -> a @ thread;\nline -> turn, turn, turn;\nmonitor line, line, line, line, line, line, line;\n";
    text.into_bytes()
}

/// The field rises in two steps to 9, at which every thread ends, and begins anew: so up to three threads of a monitor run at once.
fn rising(dice: u64, before: u64) -> u64 {
    let field = match before >> 1 {
        0..=2 => 3 + dice % 6,
        3..=8 => 9,
        _ => dice % 3,
    };
    1 + 2 * field
}

/// A chain of 100 stages, each of two starred letters.
fn chain() -> (Vec<u8>, Vec<u64>) {
    let mut text = String::from("input F[7:0];\nchain -> ");
    for k in 0..100 {
        text += &format!("((F == {})* || (F == {})*), ", 2 * k, 2 * k + 1);
    }
    text += "F == 255;\nmonitor chain;\n";
    (text.into_bytes(), (0..200).chain([255]).collect())
}

/// A bus that waits while HREADY is low: once it has, all of the address, and the data of a write that is under way, are as before up to the tick at which it is ready.
const WAITING: &[u8] = b"input HREADY;
input HTRANS[1:0];
input HWRITE;
input HSIZE[2:0];
input HBURST[2:0];
input HADDR[31:0];
input HWDATA[17:0];
define address_held = HTRANS == past(HTRANS) & HWRITE == past(HWRITE) & HSIZE == past(HSIZE) & HBURST == past(HBURST) & HADDR == past(HADDR);
define data_held = HWDATA == past(HWDATA);
address -> HREADY || !HREADY, (!HREADY & address_held)*, HREADY & address_held;
written -> HREADY || !HREADY, (!HREADY & data_held)*, HREADY & data_held;
data -> HREADY & HTRANS[1] & HWRITE @ written || HREADY & HTRANS[1] & !HWRITE || HREADY & !HTRANS[1] || !HREADY;
monitor address, data;
";

/// Ready or not, with all else as before half of the time: bit 60 of the dice is above the wires.
fn held_or_not(dice: u64, before: u64) -> u64 {
    if dice >> 60 & 1 == 1 {
        before & !1 | dice & 1
    } else {
        dice
    }
}

/// A chain of `n` starred letters and one more: 3n + 1 rows. A word that meets the last letter has every row entered at each tick; one that meets the first, whose
/// star goes round, two.
fn stars(n: usize) -> Vec<u8> {
    let mut text = String::from("input F[7:0];\nchain -> ");
    for k in 0..n {
        text += &format!("(F == {k})*, ");
    }
    text += &format!("F == {n};\nmonitor chain;\n");
    text.into_bytes()
}

/// Times of texts of more and more rows, all entered at each tick; and of the largest with two.
fn linear() {
    for (n, last) in [(16, true), (33, true), (66, true), (133, true), (255, true), (255, false)] {
        let text = stars(n);
        let trace = records(&vec![if last { n as u64 } else { 0 }; TICKS]);
        let mut range = vec![1; 6400 + 64 * TICKS];
        let mut best = f64::MAX;
        for _ in 0..RUNS {
            let start = Instant::now();
            proved(&text, &trace, &mut range);
            best = best.min(start.elapsed().as_secs_f64());
        }
        let entered = if last { 3 * n + 1 } else { 2 };
        let tick = best * 1e9 / TICKS as f64;
        println!("(f) chain of {} rows, {entered} entered: {tick:.0} ns a tick, {:.2} ns a row entered", 3 * n + 1, tick / entered as f64);
    }
}

fn main() {
    compare("(a) sample", SAMPLE, any);
    compare("(b) AHB slave of document 004", include_bytes!("../../../cases/ahb_slave_basic/rules.txt"), any);
    compare("(c) many positions", &many(), rising);
    let (text, pool) = chain();
    compare("(d) chain of stars", &text, from(&pool));
    compare("(e) fields held while a bus waits", WAITING, held_or_not);
    linear();
}

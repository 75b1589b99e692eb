//! Random cases through the C entries and through `second`: `fuzz N SEED`. Both sides must print the same (compare.rs says how they are held to it), and the
//! foot of it and the line above must be the model's (totals.rs). A case that fails is made small and saved under `target/fuzz/`, in a folder named by its seed.

use fuzz::compare::{differs, records_differ};
use fuzz::random::Random;
use fuzz::totals::{self, Foot};
use fuzz::{grow, past, save, shrink, threads, windows, Case};
use std::collections::BTreeMap;
use std::path::Path;

extern "C" {
    fn linewatch_sheet(text: *const u8, text_length: usize, records: *const u8, records_length: usize, sheet: *mut u8, sheet_length: usize) -> usize;
    fn linewatch_write_record(before: u64, word: u64, out: *mut u8, out_length: usize) -> usize;
}

/// What is wrong with a case, whose foot by the model is given; nothing if all is right.
fn fault(case: &Case, foot: Option<&Foot>) -> Option<&'static str> {
    if differs(linewatch_sheet, case) || records_differ(linewatch_write_record, case) {
        return Some("differs");
    }
    totals::fault(&second::sheet(&case.text, &case.trace), foot)
}

fn report(what: &str, seed: u64, case: Case) {
    let folder = format!("target/fuzz/{seed}");
    let fails = |case: &Case| fault(case, totals::of_sheet(case).as_ref()) == Some(what);
    save::save(Path::new(&folder), &shrink::shrink(case, 1, fails)).expect("the case is saved");
    println!("{what}: seed {seed}, saved in {folder}");
}

/// How many accepted texts had `past`, and how their traces were judged.
#[derive(Default)]
struct Held {
    texts: u64,
    clean: u64,
    bad: u64,
    /// Of the bad ones, those that would be ok had the fields not moved.
    moved: u64,
}

impl Held {
    fn count(&mut self, case: &Case, kind: &str) {
        if second::open(&case.text).is_err() || past::fields(&case.text).is_empty() {
            return;
        }
        self.texts += 1;
        self.clean += u64::from(kind == "clean");
        self.bad += u64::from(kind == "bad");
        self.moved += u64::from(past::moved(case));
    }
}

fn main() {
    let mut args = std::env::args().skip(1);
    let count: u64 = args.next().and_then(|a| a.parse().ok()).unwrap_or(1000);
    let first: u64 = args.next().and_then(|a| a.parse().ok()).unwrap_or(1);
    println!("{count} cases from seed {first}");
    let mut kinds = BTreeMap::new();
    let mut held = Held::default();
    let mut threads = threads::Tally::default();
    let mut feet = totals::Tally::default();
    let mut limits = windows::Tally::default();
    let mut found = 0;
    for i in 0..count {
        let seed = first.wrapping_add(i);
        let case = grow::case(&mut Random::new(seed));
        let (kind, foot) = (grow::kind(&case), totals::of_sheet(&case));
        held.count(&case, &kind);
        threads.count(&case, &kind);
        feet.count(foot.as_ref());
        limits.count(&case, foot.as_ref().map(|foot| &foot.limits));
        *kinds.entry(kind).or_insert(0u64) += 1;
        if let Some(what) = fault(&case, foot.as_ref()) {
            found += 1;
            report(what, seed, case);
        }
    }
    for (kind, n) in kinds {
        println!("{n:8} {kind}");
    }
    let Held { texts, clean, bad, moved } = held;
    println!("{texts:8} accepted with past: {clean} clean, {bad} bad, {moved} of these for a field that moved");
    println!("{threads}\n{feet}\n{limits}");
    println!("{count} cases, {found} differences");
    if found > 0 {
        std::process::exit(1);
    }
}

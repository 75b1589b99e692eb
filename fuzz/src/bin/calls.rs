//! Random looks and takes through a program that answers cases, and through `second`: `calls N SEED PROGRAM [ARGUMENT..]`. Both must print the same, with the
//! model's answers and foot (totals.rs). A case that fails is made small and saved under `target/fuzz/`, in a folder named by its seed. Where answers end early,
//! the case without one differs, and the run ends.

use fuzz::calls::{self, Busy, Met, Touches};
use fuzz::random::Random;
use fuzz::totals::{self, Foot};
use fuzz::{save, shrink, windows, Case};
use second::stage::{self, Entry, Said};
use std::ffi::OsString;
use std::io;
use std::path::Path;
use std::process::ExitCode;

/// Cases that are put to the program at once.
const LOT: usize = 4096;

/// So many cases that fail are made small and saved; the others are only named.
const SAVED: u64 = 10;

/// A program and its arguments.
struct Asked<'a>(&'a OsString, &'a [OsString]);

impl Asked<'_> {
    fn ask(&self, entries: &[Entry]) -> io::Result<Said> {
        stage::ask(self.0, self.1, entries)
    }

    /// What is wrong if the program is asked a case alone.
    fn fault(&self, case: &Case) -> Option<&'static str> {
        let entry = calls::entry(case);
        let said = self.ask(std::slice::from_ref(&entry)).ok()?;
        fault(said.answers.first(), &entry.answer, totals::of_calls(case).as_ref())
    }
}

/// What is wrong with an answer, or with the lack of one: it is not that of `second`, or that one has not the model's lines or foot.
fn fault(answer: Option<&Vec<u8>>, right: &Vec<u8>, foot: Option<&Foot>) -> Option<&'static str> {
    if answer != Some(right) {
        return Some("differs");
    }
    totals::fault(right, foot)
}

#[derive(Default)]
struct Tally {
    cases: u64,
    differences: u64,
    met: Met,
    busy: Busy,
    touches: Touches,
    feet: totals::Tally,
    limits: windows::Tally,
}

impl Tally {
    /// Puts the cases of some seeds to the program and compares; says what it did wrong besides answering wrongly.
    fn run(&mut self, asked: &Asked, seeds: &[u64]) -> io::Result<Option<String>> {
        let cases: Vec<Case> = seeds.iter().map(|&seed| calls::case(&mut Random::new(seed))).collect();
        let entries: Vec<Entry> = cases.iter().map(calls::entry).collect();
        let said = asked.ask(&entries)?;
        let compared = entries.len().min(said.answers.len() + 1);
        for (i, entry) in entries.iter().enumerate().take(compared) {
            self.met.count(&entry.answer);
            self.busy.count(&cases[i]);
            self.touches.count(&cases[i]);
            let foot = totals::of_calls(&cases[i]);
            self.feet.count(foot.as_ref());
            self.limits.count(&cases[i], foot.as_ref().map(|foot| &foot.limits));
            if let Some(what) = fault(said.answers.get(i), &entry.answer, foot.as_ref()) {
                self.report(what, asked, seeds[i], &cases[i])?;
            }
        }
        self.cases += compared as u64;
        let missing = (said.answers.len() < entries.len()).then(|| String::from("answers are missing"));
        Ok(said.fault.or(missing))
    }

    fn report(&mut self, what: &str, asked: &Asked, seed: u64, case: &Case) -> io::Result<()> {
        self.differences += 1;
        if self.differences > SAVED {
            println!("{what}: seed {seed}");
            return Ok(());
        }
        let folder = format!("target/fuzz/calls-{seed}");
        let small = shrink::shrink(case.clone(), calls::LENGTH, |case| asked.fault(case) == Some(what));
        save::save_calls(Path::new(&folder), &small)?;
        println!("{what}: seed {seed}, saved in {folder}");
        Ok(())
    }

    fn print(&self) {
        for (kind, n) in &self.met.kinds {
            println!("{n:8} {kind}");
        }
        println!("{:8} bad looks behind which a take was ok", self.met.went_on);
        let Busy { looks, went_on, takes } = self.busy;
        println!("{looks:8} looks bad for a busy thread alone, and {takes} takes; behind {went_on} of the looks a take was ok");
        let Touches { cases, shared_ok, shared_bad, not_last } = self.touches;
        println!("{cases:8} accepted: in {shared_ok} two letters lead to one row at an ok take, in {shared_bad} at a bad one; {not_last} bad before the last monitor");
        println!("{}\n{}", self.feet, self.limits);
        println!("{} cases, {} differences", self.cases, self.differences);
    }
}

/// Runs all cases, in lots, until the program is at fault; whether there was nothing wrong.
fn run(count: u64, first: u64, asked: &Asked) -> bool {
    println!("{count} cases of looks and takes from seed {first}");
    let mut tally = Tally::default();
    let mut fault = None;
    for begin in (0..count).step_by(LOT) {
        let seeds: Vec<u64> = (begin..count).take(LOT).map(|i| first.wrapping_add(i)).collect();
        fault = tally.run(asked, &seeds).unwrap_or_else(|error| Some(error.to_string()));
        if fault.is_some() {
            break;
        }
    }
    tally.print();
    if let Some(fault) = &fault {
        println!("{}: {fault}", asked.0.to_string_lossy());
    }
    tally.differences == 0 && fault.is_none()
}

fn number(argument: &OsString) -> Option<u64> {
    argument.to_str()?.parse().ok()
}

fn main() -> ExitCode {
    let arguments: Vec<OsString> = std::env::args_os().skip(1).collect();
    if let [count, first, program, arguments @ ..] = arguments.as_slice() {
        if let (Some(count), Some(first)) = (number(count), number(first)) {
            return ExitCode::from(u8::from(!run(count, first, &Asked(program, arguments))));
        }
    }
    eprintln!("usage: calls N SEED PROGRAM [ARGUMENT..]");
    ExitCode::from(2)
}

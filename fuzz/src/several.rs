//! Texts whose totals are easily miscounted: several monitors, of which a later one is often bad alone; parts that can take no tick in several ways, so that
//! two branches have the letter behind them, in the monitors and in their threads; and letters that are seldom met, or never.

use crate::random::Random;

/// The letters of a monitor are values of one of the fields, so that no word meets two.
const DECLARED: &str = "input F[1:0];\ninput G[1:0];\ninput a;\ninternal s = 0;\n";

/// Forms of parts that can take no tick in several ways. The letters w to z are the four values of a field, in any order; z comes behind the part.
const HOLLOW: &[&str] = &["(w* || x*)", "(w* || x*)", "(w* || x* || y*)", "(w*, x* || y*)", "((w* || x*), y*)", "((w || x)* || y*)", "((w*, x)* || y*)"];

/// Forms of threads, with such a part for `H`.
const THREADS: &[&str] = &["z", "z || w", "z, w", "H, z", "H, z", "w, H, z"];

/// Forms of monitors, with a thread of the other field for `T`.
const MONITORS: &[&str] = &[
    "H, z",
    "H, z",
    "z, H",
    "(H, a & z)*, !a & z",
    "(z, H, z)*, w, H, z",
    "w || x || y || z",
    "w || x, z || y, H, z",
    "z @ (T) || w || x || y",
    "(H, z) @ (T)",
    "(z, H) @ (T)",
    "(z, H) @ (T), z",
];

/// What may stand beside a letter; with the last it is never met.
const BESIDE: &[&str] = &[" & a == past(a)", " { s <- a; }", " { s <- 1; }", " & s == 0", " & s == 1", " & s == 0 & s == 1"];

/// A form, with letters of this field, and one of its values for each of w to z.
struct Filling<'r> {
    random: &'r mut Random,
    field: &'static str,
    values: [usize; 4],
}

impl<'r> Filling<'r> {
    fn new(random: &'r mut Random, field: &'static str) -> Self {
        let mut values = [0, 1, 2, 3];
        for i in 1..values.len() {
            values.swap(i, random.below(i + 1));
        }
        Filling { random, field, values }
    }

    fn filled(&mut self, form: &str) -> String {
        form.chars().map(|sign| self.sign(sign)).collect()
    }

    fn sign(&mut self, sign: char) -> String {
        match sign {
            'w' => self.letter(0),
            'x' => self.letter(1),
            'y' => self.letter(2),
            'z' => self.letter(3),
            'H' => {
                let form = self.random.pick(HOLLOW);
                self.filled(form)
            }
            'T' => {
                let form = self.random.pick(THREADS);
                let other = if self.field == "F" { "G" } else { "F" };
                Filling::new(self.random, other).filled(form)
            }
            _ => sign.to_string(),
        }
    }

    fn letter(&mut self, which: usize) -> String {
        let beside = if self.random.once_in(10) { self.random.pick::<&str>(BESIDE) } else { "" };
        format!("{} == {}{beside}", self.field, self.values[which])
    }
}

/// A text that is accepted.
pub fn text(random: &mut Random) -> String {
    let mut text = String::from(DECLARED);
    for (name, field) in [("p", "F"), ("q", "G"), ("r", "F")] {
        let form = random.pick(MONITORS);
        text += &format!("{name} -> {};\n", Filling::new(random, field).filled(form));
    }
    text + &format!("monitor {};\n", random.pick(&["p", "p, q", "p, q", "q, p", "p, p", "p, r", "q, p, r", "p, q, p, q"]))
}

#[cfg(test)]
mod tests {
    use super::*;
    use crate::compare::record;
    use crate::{follow, totals, Case};

    /// A text and its words. They fit it for a while.
    fn grown(seed: u64) -> Case {
        let random = &mut Random::new(seed);
        let text = text(random).into_bytes();
        let words = follow::words(random, &text);
        let before = [0].into_iter().chain(words.iter().copied());
        let trace = before.zip(&words).flat_map(|(before, &word)| record(before, word)).collect();
        Case { text, trace }
    }

    #[test]
    fn every_text_is_accepted() {
        for seed in 0..5000 {
            let text = text(&mut Random::new(seed));
            assert!(second::open(text.as_bytes()).is_ok(), "{text}");
        }
    }

    #[test]
    fn letters_of_a_form_are_apart() {
        let random = &mut Random::new(1);
        let filled = Filling { random, field: "F", values: [2, 0, 1, 3] }.filled("(w, x)*, y || z");
        let letters = ["F == 2", "F == 0", "F == 1", "F == 3"];
        assert!(letters.iter().all(|letter| filled.contains(letter)), "{filled}");
    }

    #[test]
    fn totals_are_easily_missed() {
        let mut tally = totals::Tally::default();
        (0..5000).for_each(|seed| tally.count(totals::of_sheet(&grown(seed)).as_ref()));
        assert!(tally.two_branches > 2000 && tally.bad_adds > 500 && tally.never_met > 2000, "{tally:?}");
    }
}

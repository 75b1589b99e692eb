//! Cases grown from the grammar: declarations, productions and monitors at random, most of them such that the shape rules are kept, half of them with
//! `past`, some with limits of their own; or a text at one of the limits of 01, around `past`, around threads, around totals or around limits of its own; then,
//! for some, a token put in another's place or bytes damaged; and a trace of words that follow the rules for a while and then leave them (follow.rs), or whose
//! last record is torn, has an idle byte or a bit above the wires.

use crate::compare::record;
use crate::random::Random;
use crate::{follow, limited, limits, past, several, threads, totals, Case};

struct Input {
    name: String,
    width: u32,
}

struct Grown {
    text: String,
    inputs: Vec<Input>,
    stores: Vec<(String, u32)>,
    defines: Vec<String>,
    productions: Vec<String>,
    /// Those of the productions that are a single letter.
    singles: Vec<String>,
    /// One literal in so many is `wire == past(wire)`; with 0 none is.
    past: usize,
    /// Defines of nothing but such literals.
    holding: Vec<String>,
}

fn width(random: &mut Random) -> u32 {
    match random.below(8) {
        0..=3 => 1,
        4 | 5 => 2,
        6 => 3,
        _ => 1 + random.below(20) as u32,
    }
}

fn number(random: &mut Random, width: u32) -> u64 {
    if random.once_in(40) {
        return random.word() >> random.below(64);
    }
    random.word() & ((1u64 << width.min(63)) - 1)
}

impl Grown {
    /// An input, mostly one as wide as is asked for.
    fn input_of(&self, random: &mut Random, width: u32) -> &Input {
        let fitting: Vec<&Input> = self.inputs.iter().filter(|i| i.width == width).collect();
        if fitting.is_empty() || random.once_in(20) {
            return random.pick(&self.inputs);
        }
        fitting[random.below(fitting.len())]
    }

    /// `wire == past(wire)`, seldom with another wire inside; or a define of such, or several.
    fn held(&self, random: &mut Random) -> String {
        if !self.holding.is_empty() && random.once_in(3) {
            return random.pick(&self.holding).clone();
        }
        let name = &random.pick(&self.inputs).name;
        let inner = if random.once_in(80) { &random.pick(&self.inputs).name } else { name };
        let literal = format!("{name} == past({inner})");
        if random.once_in(3) {
            return format!("{literal} & {}", self.held(random));
        }
        literal
    }

    fn literal(&self, random: &mut Random) -> String {
        if self.past > 0 && random.once_in(self.past) {
            return self.held(random);
        }
        let input = random.pick(&self.inputs);
        if !self.stores.is_empty() && random.once_in(6) {
            let (store, width) = random.pick(&self.stores);
            return if random.once_in(2) {
                format!("{store} == {}", number(random, *width))
            } else {
                format!("{} == {store}", self.input_of(random, *width).name)
            };
        }
        if !self.defines.is_empty() && random.once_in(8) {
            return random.pick(&self.defines).clone();
        }
        let bang = if random.once_in(2) { "!" } else { "" };
        match random.below(4) {
            0 if input.width == 1 => format!("{bang}{}", input.name),
            1 => {
                let beyond = usize::from(random.once_in(30));
                format!("{bang}{}[{}]", input.name, random.below(input.width as usize + beyond))
            }
            _ if input.width == 1 => format!("{bang}{}", input.name),
            _ => format!("{} == {}", input.name, number(random, input.width)),
        }
    }

    fn letter(&self, random: &mut Random) -> String {
        let mut letter = self.literal(random);
        while random.once_in(3) {
            letter += &format!(" & {}", self.literal(random));
        }
        if !self.stores.is_empty() && random.once_in(3) {
            letter += " {";
            loop {
                let (store, width) = random.pick(&self.stores);
                if random.once_in(2) {
                    letter += &format!(" {store} <- {};", number(random, *width));
                } else {
                    letter += &format!(" {store} <- {};", self.input_of(random, *width).name);
                }
                if !random.once_in(3) {
                    break;
                }
            }
            letter += " }";
        }
        letter
    }

    /// One of `parts` letters that exclude each other by the values of one field or wire, with what is asked beside it.
    fn exclusive(&self, random: &mut Random, input: &Input, value: u64) -> String {
        let test = if input.width == 1 {
            format!("{}{}", if value == 0 { "!" } else { "" }, input.name)
        } else {
            format!("{} == {value}", input.name)
        };
        if self.past > 0 && random.once_in(3) {
            format!("{test} & {}", self.held(random))
        } else if random.once_in(4) {
            format!("{test} & {}", self.letter(random))
        } else {
            test
        }
    }

    fn expression(&self, random: &mut Random, depth: usize) -> String {
        if depth == 0 {
            if !self.productions.is_empty() && random.once_in(3) {
                return random.pick(&self.productions).clone();
            }
            return self.letter(random);
        }
        let input = random.pick(&self.inputs);
        let one = random.below(1 << input.width.min(4)) as u64;
        let other = if input.width == 1 { 1 - one } else { (one + 1) & ((1 << input.width.min(4)) - 1) };
        match random.below(9) {
            0 | 1 => format!("{}, {}", self.expression(random, depth - 1), self.expression(random, depth - 1)),
            2 => format!("{} || {}", self.expression(random, depth - 1), self.expression(random, depth - 1)),
            3 => {
                let (a, b) = (self.exclusive(random, input, one), self.exclusive(random, input, other));
                format!("({a} || {b}, {})", self.expression(random, depth - 1))
            }
            4 => {
                let (a, b) = (self.exclusive(random, input, one), self.exclusive(random, input, other));
                format!("({a})*, {b}")
            }
            5 => {
                let (a, b) = (self.exclusive(random, input, one), self.exclusive(random, input, other));
                format!("(({a}) @ ({}) || {b})", self.expression(random, depth - 1))
            }
            6 => format!("({})", self.expression(random, depth - 1)),
            7 => format!("({})*", self.expression(random, depth - 1)),
            _ => format!("({}) @ ({})", self.expression(random, depth - 1), self.expression(random, depth - 1)),
        }
    }
}

fn text(random: &mut Random) -> String {
    let past = *random.pick(&[0, 0, 0, 6, 3, 2]);
    let mut g = Grown {
        text: String::new(),
        inputs: Vec::new(),
        stores: Vec::new(),
        defines: Vec::new(),
        productions: Vec::new(),
        singles: Vec::new(),
        past,
        holding: Vec::new(),
    };
    let limit = random.once_in(60);
    for i in 0..1 + random.below(if limit { 70 } else { 4 }) {
        let w = width(random);
        let name = format!("w{i}");
        g.text += &if w == 1 && !random.once_in(8) { format!("input {name};\n") } else { format!("input {name}[{}:0];\n", w - 1) };
        g.inputs.push(Input { name, width: w });
    }
    for i in 0..random.below(if limit { 20 } else { 3 }) {
        let w = if random.once_in(3) { width(random) } else { g.inputs[random.below(g.inputs.len())].width };
        let value = number(random, w);
        g.text += &if w == 1 { format!("internal s{i} = {value};\n") } else { format!("internal s{i}[{}:0] = {value};\n", w - 1) };
        g.stores.push((format!("s{i}"), w));
    }
    for i in 0..random.below(3) {
        let mut body = g.literal(random);
        while random.once_in(2) {
            body += &format!(" & {}", g.literal(random));
        }
        g.text += &format!("define d{i} = {body};\n");
        g.defines.push(format!("d{i}"));
    }
    if past > 0 && random.once_in(2) {
        let body = g.held(random);
        g.text += &format!("define held = {body};\n");
        g.holding.push(String::from("held"));
    }
    let limiting = random.once_in(4);
    for i in 0..1 + random.below(if limit { 130 } else { 4 }) {
        let depth = if limiting && random.once_in(3) { 0 } else { random.below(4) };
        let body = g.expression(random, depth);
        g.text += &format!("p{i} -> {body};\n");
        if depth == 0 && (g.singles.contains(&body) || !g.productions.contains(&body)) {
            g.singles.push(format!("p{i}"));
        }
        g.productions.push(format!("p{i}"));
        if limiting && random.once_in(2) {
            g.text += &limited::any_limit(random, &g.productions, &g.singles);
        }
    }
    if random.once_in(40) {
        for i in 0..1 + random.below(9) {
            let last = g.productions.last().expect("there is one").clone();
            g.text += &format!("q{i} -> {last}, {last};\n");
            g.productions.push(format!("q{i}"));
        }
    }
    let mut listed = vec![g.productions.last().expect("there is one").clone()];
    while random.once_in(3) || (limit && listed.len() < 40 && !random.once_in(20)) {
        listed.push(random.pick(&g.productions).clone());
    }
    g.text += &format!("monitor {};\n", listed.join(", "));
    g.text
}

const TOKENS: &[&str] = &[
    ";", ",", "@", "*", "&", "!", "(", ")", "[", "]", "{", "}", ":", "=", "==", "||", "->", "<-", "input", "internal", "define", "monitor", "past", "past(w0)", "w0", "w1", "s0", "d0", "p0",
    "limit", "to", "in", "limit p0 to 1 in 2;", "1023", "1024", "1025", "x", "0", "1", "7", "18446744073709551615", "18446744073709551616",
    "a_name_of_sixteen", "|", "#",
];

/// Another token in the place of one, a token more, or one less.
fn tokens_changed(random: &mut Random, text: &str) -> String {
    let mut parts: Vec<String> = past::parts(text).into_iter().map(String::from).collect();
    for _ in 0..1 + random.below(2) {
        let at = random.below(parts.len());
        match random.below(3) {
            0 => parts[at] = (*random.pick(TOKENS)).to_string(),
            1 => parts.insert(at, format!(" {} ", random.pick(TOKENS))),
            _ => {
                parts.remove(at);
            }
        }
        if parts.is_empty() {
            break;
        }
    }
    parts.concat()
}

fn damaged(random: &mut Random, mut bytes: Vec<u8>) -> Vec<u8> {
    for _ in 0..1 + random.below(3) {
        if bytes.is_empty() {
            break;
        }
        let at = random.below(bytes.len());
        match random.below(3) {
            0 => bytes[at] = random.word() as u8,
            1 => {
                bytes.remove(at);
            }
            _ => bytes.insert(at, random.word() as u8),
        }
    }
    bytes
}

/// A map with too few bytes behind it.
fn torn(random: &mut Random, before: u64) -> Vec<u8> {
    let mut record = record(before, before ^ (random.word() | 1));
    record.truncate(1 + random.below(record.len() - 1));
    record
}

/// A record with a byte that is as it was, alone or among some that changed.
fn idle(random: &mut Random, before: u64) -> Vec<u8> {
    let unchanged = random.below(8);
    let changed = if random.once_in(4) { 0 } else { random.word() as u8 & random.word() as u8 };
    let map = changed | 1 << unchanged;
    let mut record = vec![map];
    for i in (0..8).filter(|i| map >> i & 1 == 1) {
        record.push(before.to_le_bytes()[i] ^ u8::from(i != unchanged));
    }
    record
}

/// The trace of some words, for some with a last record that is refused.
fn trace(random: &mut Random, words: &[u64]) -> Vec<u8> {
    let mut trace = Vec::new();
    let mut before = 0;
    for &word in words {
        trace.extend(record(before, word));
        before = word;
    }
    match random.below(16) {
        0 => trace.extend(torn(random, before)),
        1 => trace.extend(idle(random, before)),
        2 => trace = damaged(random, trace),
        _ => (),
    }
    trace
}

pub fn case(random: &mut Random) -> Case {
    let mut text = match random.below(30) {
        0 | 1 => limits::text(random),
        2 | 3 => past::formed(random).text,
        4..=9 => threads::text(random),
        10 | 11 => several::text(random),
        12..=15 => limited::text(random),
        16 => limited::formed(random).text,
        _ => text(random),
    }
    .into_bytes();
    if random.once_in(4) {
        text = tokens_changed(random, &String::from_utf8(text).expect("a grown text is ASCII")).into_bytes();
    }
    if random.once_in(12) {
        text = damaged(random, text);
    }
    if random.once_in(50) {
        let length = 16_380 + random.below(8);
        text.resize(length.max(text.len()), b' ');
    }
    let words = follow::words(random, &text);
    let trace = trace(random, &words);
    Case { text, trace }
}

/// The first two words of a sheet's last line above the foot, or its first alone where the second is a count: what kind of sheet it is.
pub fn kind(case: &Case) -> String {
    let sheet = second::sheet(&case.text, &case.trace);
    let (above, _) = totals::parted(&sheet);
    let last = above.split(|&b| b == b'\n').rev().nth(1).unwrap_or(&[]);
    let words: Vec<String> = last.split(|&b| b == b' ').map(|w| String::from_utf8_lossy(w).into_owned()).collect();
    match words[0].as_str() {
        "refused" => format!("refused {:>2}", words[1]),
        "clean" => String::from("clean"),
        _ => String::from("bad"),
    }
}

#[cfg(test)]
mod tests {
    use super::*;
    use crate::windows;
    use std::collections::BTreeSet;

    /// All that a sheet can end in above its foot, but for number 17, which takes a million ticks; 16 and 18 stand in no sheet.
    #[test]
    fn every_kind_of_sheet_is_grown() {
        let grown: BTreeSet<String> = (0..20_000).map(|seed| kind(&case(&mut Random::new(seed)))).collect();
        let refused = (1..=15).chain([21, 22]).map(|number| format!("refused {number:>2}"));
        let all: BTreeSet<String> = refused.chain([String::from("clean"), String::from("bad")]).collect();
        assert_eq!(grown, all);
    }

    /// A tenth of the cases are accepted texts with `past`; many of them have a bad tick, and many of these are bad for a field that moved.
    #[test]
    fn fields_held_by_past_are_kept_and_moved() {
        let cases = (0..20_000).map(|seed| case(&mut Random::new(seed)));
        let held: Vec<Case> = cases.filter(|case| second::open(&case.text).is_ok() && !past::fields(&case.text).is_empty()).collect();
        let bad: Vec<&Case> = held.iter().filter(|case| kind(case) == "bad").collect();
        let moved = bad.iter().filter(|case| past::moved(case)).count();
        let counts = (held.len(), bad.len(), moved);
        assert!(counts.0 > 2000 && counts.1 > 700 && counts.2 > 500, "{counts:?}");
    }

    /// Limits are passed, by each number, and just not; at ticks that are bad for a monitor too; and windows of all lengths are gone round.
    #[test]
    fn limits_are_met_in_many_ways() {
        let mut tally = windows::Tally::default();
        for case in (0..10_000).map(|seed| case(&mut Random::new(seed))) {
            tally.count(&case, totals::of_sheet(&case).map(|foot| foot.limits).as_ref());
        }
        let often = [tally.texts / 4, tally.ninth, tally.just_beyond, tally.just_within, tally.rounds / 4, tally.two_letters];
        let seldom = [tally.several, tally.with_monitor, tally.long_rounds, tally.long];
        assert!(often.iter().all(|&n| n > 50) && seldom.iter().all(|&n| n > 20) && tally.beyond.iter().all(|&n| n > 2), "{tally:?}");
    }

    #[test]
    fn torn_and_idle_records_are_what_they_are_called() {
        for seed in 0..2000 {
            let random = &mut Random::new(seed);
            let before = random.word();
            let number = |bytes: &[u8]| second::record::read(bytes, 0, before).err().map(|refusal| refusal.number());
            assert_eq!(number(&torn(random, before)), Some(13));
            assert_eq!(number(&idle(random, before)), Some(14));
        }
    }

    #[test]
    fn the_same_seed_grows_the_same_case() {
        for seed in 0..100 {
            assert_eq!(case(&mut Random::new(seed)), case(&mut Random::new(seed)));
        }
    }
}

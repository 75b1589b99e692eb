//! Texts around the limits of 01: one below a limit, at it, or one beyond. Only the limit that is picked is passed, so a text at it is accepted.
//!
//! The limit of 1,000,000 ticks is not here: it takes a second a case, and `client/client.c` has it.

use crate::random::Random;

/// A limit: what is counted, the most that is allowed, the number that refuses more, and a text with a count.
pub struct Limit {
    pub what: &'static str,
    pub most: u128,
    pub beyond: u8,
    pub text: fn(&mut Random, u128) -> String,
}

pub const LIMITS: &[Limit] = &[
    Limit { what: "bytes of a text", most: 16_384, beyond: 1, text: bytes },
    Limit { what: "characters of a name", most: 16, beyond: 2, text: name },
    Limit { what: "a number", most: u64::MAX as u128, beyond: 2, text: number },
    Limit { what: "names", most: 128, beyond: 7, text: names },
    Limit { what: "wires", most: 64, beyond: 6, text: wires },
    Limit { what: "h", most: 63, beyond: 6, text: field },
    Limit { what: "a bit's index", most: 7, beyond: 6, text: index },
    Limit { what: "a value of 8 bits", most: 255, beyond: 6, text: value },
    Limit { what: "stores", most: 16, beyond: 7, text: stores },
    Limit { what: "store tests", most: 2, beyond: 7, text: tests_of_stores },
    Limit { what: "writes", most: 2, beyond: 7, text: writes },
    Limit { what: "parentheses", most: 32, beyond: 7, text: parentheses },
    Limit { what: "monitors", most: 32, beyond: 7, text: monitors },
    Limit { what: "letters", most: 256, beyond: 8, text: letters },
    Limit { what: "limits", most: 8, beyond: 7, text: limits },
    Limit { what: "ticks that a limit allows", most: 1_023, beyond: 21, text: ticks_allowed },
    Limit { what: "ticks of a window", most: 1_024, beyond: 21, text: ticks_of_a_window },
];

/// A text around one of the limits.
pub fn text(random: &mut Random) -> String {
    let limit = random.pick(LIMITS);
    let count = limit.most - 1 + random.below(3) as u128;
    (limit.text)(random, count)
}

/// One of some texts.
fn one_of(random: &mut Random, texts: &[&str]) -> String {
    (*random.pick(texts)).to_string()
}

/// Zeros that a number may begin with.
fn zeros(random: &mut Random) -> String {
    "0".repeat(if random.once_in(3) { random.below(4) } else { 0 })
}

fn bytes(random: &mut Random, count: u128) -> String {
    let mut text = String::from("input a; p -> a || !a; monitor p;");
    let white = one_of(random, &[" ", "\n", "\t", "\r"]);
    let at = if random.once_in(2) { text.len() } else { 9 };
    text.insert_str(at, &white.repeat(count as usize - text.len()));
    text
}

fn name(random: &mut Random, count: u128) -> String {
    let mut name = one_of(random, &["n", "N", "_", "input", "monitor", "define", "internal", "past", "limit", "to", "in"]);
    while name.len() < count as usize {
        name += &one_of(random, &["a", "Z", "0", "9", "_"]);
    }
    match random.below(4) {
        0 => format!("input {name}; p -> {name} || !{name}; monitor p;"),
        1 => format!("input a; {name} -> a || !a; monitor {name};"),
        2 => format!("input a; internal {name} = 1; p -> a & {name} == 1 || !a; monitor p;"),
        _ => format!("input a; define {name} = a; p -> {name} || !a; monitor p;"),
    }
}

fn number(random: &mut Random, count: u128) -> String {
    let zeros = zeros(random);
    match random.below(3) {
        0 => format!("input D[63:0]; p -> D == {zeros}{count} || D == 0; monitor p;"),
        1 => format!("input D[63:0]; internal s[63:0] = {zeros}{count}; p -> D == s; monitor p;"),
        _ => format!("input D[63:0]; internal s[63:0] = 0; p -> !D[0] {{ s <- {zeros}{count}; }} || D[0] & D == s; monitor p;"),
    }
}

fn names(random: &mut Random, count: u128) -> String {
    let mut text = String::from("input a;\n");
    for i in 1..count - 1 {
        text += &match random.below(3) {
            0 => format!("define n{i} = a;\n"),
            1 => format!("n{i} -> a;\n"),
            _ if i <= 16 => format!("internal n{i} = 0;\n"),
            _ => format!("define n{i} = !a & !a[0];\n"),
        };
    }
    text + "p -> a || !a;\nmonitor p;"
}

fn wires(random: &mut Random, count: u128) -> String {
    let mut text = String::new();
    let mut left = count as usize;
    let mut i = 0;
    while left > 0 {
        let width = if random.once_in(2) { 1 } else { 1 + random.below(left) };
        text += &if width == 1 { format!("input w{i};\n") } else { format!("input w{i}[{}:0];\n", width - 1) };
        left -= width;
        i += 1;
    }
    let last = i - 1;
    text + &format!("p -> w{last}[0] || !w{last}[0], w0[0];\nmonitor p;")
}

fn field(random: &mut Random, count: u128) -> String {
    let zeros = zeros(random);
    match random.below(3) {
        0 => format!("input D[{zeros}{count}:0]; p -> D[{count}] || D == 0; monitor p;"),
        1 => format!("input D[{zeros}{count}:{zeros}0]; internal s[{count}:0] = 1; p -> D == s {{ s <- D; }}; monitor p;"),
        _ => format!("input a; internal s[{zeros}{count}:0] = 18446744073709; p -> a & s == 18446744073709 || !a; monitor p;"),
    }
}

fn index(random: &mut Random, count: u128) -> String {
    let zeros = zeros(random);
    format!("input a; input D[7:0]; input b; p -> D[{zeros}{count}] || !D[{count}]; monitor p;")
}

fn value(random: &mut Random, count: u128) -> String {
    let zeros = zeros(random);
    match random.below(4) {
        0 => format!("input D[7:0]; p -> D == {zeros}{count} || D == 0; monitor p;"),
        1 => format!("input D[7:0]; internal s[7:0] = {zeros}{count}; p -> D == s; monitor p;"),
        2 => format!("input a; internal s[7:0] = 0; p -> a & s == {zeros}{count} || !a; monitor p;"),
        _ => format!("input D[7:0]; internal s[7:0] = 0; p -> !D[0] {{ s <- {zeros}{count}; }} || D[0] & D == s; monitor p;"),
    }
}

fn stores(random: &mut Random, count: u128) -> String {
    let mut text = String::from("input a; input D[3:0];\n");
    for i in 0..count {
        let first = random.below(16);
        text += &format!("internal s{i}[3:0] = {first};\n");
    }
    let last = count - 1;
    text + &format!("p -> a {{ s{last} <- D; s0 <- {}; }} || !a & D == s{last} & s0 == {};\nmonitor p;", random.below(16), random.below(16))
}

/// So many store tests in one letter: each written out, or by defines with some of them. `past` is none.
fn tests_of_stores(random: &mut Random, count: u128) -> String {
    let mut left = count as usize;
    let mut text = String::from("input a; input b; internal s = 0; internal t = 1;\ndefine none = b & b == past(b);\ndefine one = s == 0;\ndefine two = t == 1 & b == s;\n");
    let mut letter = String::from("a");
    while left > 0 {
        let (tests, literal) = *random.pick(&[(0, "none"), (0, "a == past(a)"), (1, "one"), (2, "two"), (1, "s == 0"), (1, "b == t"), (1, "t == 1")]);
        if tests <= left {
            letter += &format!(" & {literal}");
            left -= tests;
        }
    }
    text += &format!("p -> {letter} || !a;\nmonitor p;");
    text
}

fn writes(random: &mut Random, count: u128) -> String {
    let written: Vec<&str> = (0..count).map(|_| *random.pick(&["s <- a;", "t <- b;", "s <- 1;", "s <- b;", "t <- 0;"])).collect();
    format!("input a; input b; internal s = 0; internal t = 1;\np -> a {{ {} }} || !a & b == s & t == 1;\nmonitor p;", written.join(" "))
}

/// Parentheses so deep, some with a letter before the next one; those of `past` are no level.
fn parentheses(random: &mut Random, count: u128) -> String {
    let left: String = (0..count).map(|_| one_of(random, &["(", "( ", "(a, ", "((a), "])).collect();
    let left = if left.ends_with("((a), ") { left[..left.len() - 6].to_string() + "(" } else { left };
    let right = ")".repeat(count as usize);
    let letter = one_of(random, &["a", "a & a == past(a)"]);
    format!("input a;\np -> {left}{letter}{right} || !a;\nmonitor p;")
}

fn monitors(random: &mut Random, count: u128) -> String {
    let listed: Vec<&str> = (0..count).map(|_| *random.pick(&["p", "q", "r"])).collect();
    format!("input a; input b;\np -> a || !a;\nq -> a || !a, p;\nr -> a @ (b || !b) || !a;\nmonitor {};", listed.join(", "))
}

/// So many letters, by productions of 1, 2, 4 .. of them, as one monitor or as several.
fn letters(random: &mut Random, count: u128) -> String {
    let mut text = String::from("input a;\np0 -> a;\n");
    for i in 1..9 {
        text += &format!("p{i} -> p{0}, p{0};\n", i - 1);
    }
    let parts: Vec<String> = (0..9).filter(|i| count >> i & 1 == 1).map(|i| format!("p{i}")).collect();
    if random.once_in(2) {
        text + &format!("monitor {};", parts.join(", "))
    } else {
        text + &format!("p -> {};\nmonitor p;", parts.join(", "))
    }
}

/// So many limits, of productions that stand for each other.
fn limits(random: &mut Random, count: u128) -> String {
    let limits: String = (0..count).map(|_| format!("limit {} to 1 in {};\n", random.pick(&["x", "y"]), 2 + random.below(5))).collect();
    format!("input a;\nx -> a;\ny -> x;\np -> y || !a;\n{limits}monitor p;")
}

/// A limit that allows so many ticks, of one more.
fn ticks_allowed(random: &mut Random, count: u128) -> String {
    let zeros = zeros(random);
    format!("input a; x -> a; limit x to {zeros}{count} in {}; p -> x || !a; monitor p;", count + 1)
}

fn ticks_of_a_window(random: &mut Random, count: u128) -> String {
    let zeros = zeros(random);
    format!("input a; x -> a; limit x to {} in {zeros}{count}; p -> x || !a; monitor p;", random.pick(&[0, 1, 500, 1022]))
}

#[cfg(test)]
mod tests {
    use super::*;

    /// At each limit and one below it a text is accepted, and one beyond it is refused with the number that 01 says.
    #[test]
    fn every_limit_is_met_and_passed() {
        for limit in LIMITS {
            for seed in 0..200 {
                for count in [limit.most - 1, limit.most, limit.most + 1] {
                    let text = (limit.text)(&mut Random::new(seed), count);
                    let number = second::open(text.as_bytes()).err().map(|refusal| refusal.number());
                    let right = if count > limit.most { Some(limit.beyond) } else { None };
                    assert_eq!(number, right, "{}: {count}, in\n{text}", limit.what);
                }
            }
        }
    }
}

//! Texts with limits (docs/REFERENCE.md, G22): such that most words are ok, so that traces are long and windows are gone round, and ones with one fault, each
//! with the number that refuses it and the token at fault.

use crate::past::{self, Formed};
use crate::random::Random;
use crate::windows::MOST;

const DECLARED: &str = "input a;\ninput b;\ninput F[1:0];\ninternal s = 0;\n";

/// Productions of a single letter with the forms of their bodies. Those of wire a, and those of wire b, stand for each other; the last is in no monitor.
const SINGLE: &[(&str, &[&str])] = &[
    ("x", &["a", "a", "a", "a", "(a)", "((a & a[0]))", "a & F == past(F)", "a & F[0]", "a { s <- b; }", "a & s == 0"]),
    ("y", &["b", "b", "b", "(b)", "b & !F[1]", "b { s <- a; }"]),
    ("q", &["x", "x", "(x)"]),
    ("r", &["q", "q", "((q))", "x"]),
    ("u", &["y", "(y)"]),
    ("v", &["a & !a", "b"]),
];

/// Forms of monitors: X and Y are letters of wire a and of wire b, written out or by one of the productions. Some word is nearly always ok; the last have words
/// that are not.
const LINES: &[&str] = &[
    "X || !a",
    "X || !a",
    "X || !a",
    "Y || !b",
    "(X)*, !a",
    "X, (X || !a) || !a",
    "X, (Y || !b) || !a",
    "X @ (Y || !b) || !a",
    "X @ (X || !a) || !a",
    "(X || !a) @ (Y || !b)",
    "X @ (b || !b, (Y || !b)) || !a",
    "X, Y || !a",
    "X, (Y)*, !b || !a",
    "b & !F[1] || !b",
    "F == 0 || F == 1 || F == 2, (X || !a)",
];

/// Which are listed: of the lines, and of the productions of a single letter, which then has every tick.
const LISTED: &[&str] = &["p", "p", "p", "p, l", "p, l", "p, l", "l, p", "p, p", "p, l, p", "x, p", "p, q", "r, x"];

/// The most ticks that a limit may have in its window.
const LONGEST: usize = 1024;

/// A length for a window.
fn window(random: &mut Random, kind: usize) -> usize {
    match kind {
        0 => 1 + random.below(9),
        1 => *random.pick(&[2, 2, 3, 31, 32, 33, 63, 64, 64, 65, 65, 66, 127, 128, 129]),
        2 => *random.pick(&[500, 1000, 1022, 1023, 1023, 1024, 1024, 1024]),
        _ => 1 + random.below(LONGEST),
    }
}

/// How many ticks a limit allows, if so many of 16 are to be allowed, or nearly so.
fn most(random: &mut Random, window: usize, share: usize) -> usize {
    let about = window * share / 16 + random.below(3);
    about.saturating_sub(1).min(window - 1)
}

/// A statement of a limit. A number and a word may stand together.
fn limit(random: &mut Random, name: &str, most: usize, window: usize) -> String {
    let space = if random.once_in(8) { "" } else { " " };
    format!("limit {name} to {most}{space}in {window};\n")
}

/// A letter of a line: written out, or by one of these productions.
fn letter<'n>(random: &mut Random, written: &'n str, names: &[&'n str]) -> &'n str {
    if random.once_in(8) {
        return written;
    }
    random.pick::<&str>(names)
}

/// A line, of one of the forms.
fn line(random: &mut Random) -> String {
    let mut line = String::new();
    for sign in random.pick(LINES).chars() {
        match sign {
            'X' => line += letter(random, "a", &["x", "x", "q", "r"]),
            'Y' => line += letter(random, "b", &["y", "u"]),
            _ => line.push(sign),
        }
    }
    line
}

/// One of the productions of a single letter, mostly one whose name stands in these lines.
fn limited(random: &mut Random, lines: &str) -> &'static str {
    let names: Vec<&str> = SINGLE.iter().map(|&(name, _)| name).collect();
    let used: Vec<&str> = past::parts(lines).into_iter().filter_map(|part| names.iter().copied().find(|&name| name == part)).collect();
    if used.is_empty() || random.once_in(4) {
        return random.pick::<&str>(&names);
    }
    random.pick::<&str>(&used)
}

/// Puts a limit of a production somewhere below it.
fn put_limit(random: &mut Random, statements: &mut Vec<String>, name: &str, most: usize, window: usize) {
    let declared = statements.iter().position(|statement| statement.starts_with(&format!("{name} ->"))).expect("it is there");
    let at = declared + 1 + random.below(statements.len() - declared);
    statements.insert(at, limit(random, name, most, window));
}

/// A text with some limits, which is accepted unless it has a ninth.
pub fn text(random: &mut Random) -> String {
    let mut statements: Vec<String> = SINGLE.iter().map(|(name, forms)| format!("{name} -> {};\n", random.pick(forms))).collect();
    let lines = [line(random), line(random)];
    statements.push(format!("p -> {};\n", lines[0]));
    statements.push(format!("l -> {};\n", lines[1]));
    let share = *random.pick(&[0, 1, 2, 4, 6, 8, 8, 10, 12, 14, 15, 16]);
    let kind = *random.pick(&[0, 0, 0, 1, 1, 1, 2, 3]);
    let count = if random.once_in(16) { MOST + 1 } else { *random.pick(&[1, 1, 1, 2, 2, 3, 4, 6, MOST, MOST]) };
    // One of them allows less than the others.
    let tightest = random.below(count);
    for number in 0..count {
        let name = limited(random, &lines[0]);
        let kind = if random.once_in(6) { random.below(2) } else { kind };
        let window = window(random, kind);
        let most = most(random, window, if number == tightest { share } else { (share + 4).min(16) });
        put_limit(random, &mut statements, name, most, window);
    }
    format!("{DECLARED}{}monitor {};\n", statements.concat(), random.pick(LISTED))
}

/// A statement for a text with these productions, of which some are of a single letter; the numbers are mostly such that it is accepted.
pub fn any_limit(random: &mut Random, productions: &[String], singles: &[String]) -> String {
    let name = if singles.is_empty() || random.once_in(12) { random.pick(productions) } else { random.pick(singles) };
    let kind = *random.pick(&[0, 0, 0, 1]);
    let window = if random.once_in(40) { LONGEST + 1 } else { window(random, kind) };
    let most = if random.once_in(16) { window + random.below(2) } else { random.below(window) };
    limit(random, name, most, window)
}

/// A form, in tokens with a space between them: the number that refuses it, or 0 if it is accepted, and the tokens, of which the one at fault has a `^` before
/// it (for 9, which names no byte, none has).
type Form = (u8, &'static str);

/// Declared in every text before the form: wires, a store, a define, productions of a single letter and others.
const AROUND: &str = "input a ; input b ; input F [ 1 : 0 ] ; internal s = 0 ; define d = a & s == 0 ; x -> a ; y -> ( x ) ; z -> b { s <- 1 ; } ; \
                      two -> x , b ; either -> x || ! a ; star -> ( x ) * , ! a ; pipe -> x @ ( b || ! b ) || ! a ;";

/// Eight limits.
const EIGHT: &str = "limit x to 0 in 1 ; limit y to 1 in 2 ; limit x to 63 in 64 ; limit z to 5 in 65 ; \
                     limit z to 1022 in 1023 ; limit z to 1023 in 1024 ; limit y to 1 in 1024 ; limit y to 1 in 1024 ;";

/// Statements, below the declarations. `EIGHT` stands for eight limits.
const STATEMENTS: &[Form] = &[
    (0, "limit x to 0 in 1 ;"),
    (0, "limit x to 1023 in 1024 ;"),
    (0, "limit y to 3 in 4 ; limit y to 3 in 4 ;"),
    (0, "limit z to 00 in 0001 ;"),
    (0, "w -> d ; limit w to 1 in 2 ;"),
    (0, "w -> ( ( ( y ) ) ) ; limit w to 1 in 64 ;"),
    (0, "w -> F == past ( F ) & a { s <- b ; s <- 0 ; } ; limit w to 64 in 65 ;"),
    (0, "w -> a & ! a ; limit w to 0 in 2 ;"),
    (0, "EIGHT"),
    (0, "input into ; input inn ; input t ; input too ; input to_ ; input i ; input limits ; input Limit ; input To ; input IN ; input _in ;"),
    (2, "limit x to ^18446744073709551616 in 1 ;"),
    (2, "limit x to 1 in ^18446744073709551616 ;"),
    (2, "limit x to ^$ ;"),
    (2, "limit ^a_name_of_18_chars to 1 in 2 ;"),
    (3, "limit ^to to 1 in 2 ;"),
    (3, "limit ^in to 1 in 2 ;"),
    (3, "limit ^limit to 1 in 2 ;"),
    (3, "limit ^5 to 1 in 2 ;"),
    (3, "limit ^( x ) to 1 in 2 ;"),
    (3, "limit ^! x to 1 in 2 ;"),
    (3, "limit x ^, y to 1 in 2 ;"),
    (3, "limit x ^in 1 to 2 ;"),
    (3, "limit x ^1 in 2 ;"),
    (3, "limit x ^;"),
    (3, "limit x ^too 1 in 2 ;"),
    (3, "limit x to ^x in 2 ;"),
    (3, "limit x to ^zz in 2 ;"),
    (3, "limit x to ^in 2 ;"),
    (3, "limit x to ^( 1 ) in 2 ;"),
    (3, "limit x to 1 ^to 2 ;"),
    (3, "limit x to 1 ^2 ;"),
    (3, "limit x to 1 ^;"),
    (3, "limit x to 1 in ^x ;"),
    (3, "limit x to 1 in ^;"),
    (3, "limit x to 1 in 2 ^, x to 1 in 2 ;"),
    (3, "limit x to 1 in 2 ^limit x to 1 in 2 ;"),
    (3, "limit x to 1 in 2 ^monitor x ;"),
    (3, "^to -> a ;"),
    (3, "^in -> a ;"),
    (3, "^to x in 2 ;"),
    (3, "limit ^-> a ;"),
    (3, "input ^to ;"),
    (3, "input ^in [ 1 : 0 ] ;"),
    (3, "input ^limit ;"),
    (3, "internal ^in = 0 ;"),
    (3, "internal u = ^limit ;"),
    (3, "define ^to = a ;"),
    (3, "define u = ^in ;"),
    (3, "w -> ^in ;"),
    (3, "w -> a ^in b ;"),
    (3, "w -> a & ^limit ;"),
    (3, "w -> ! ^to ;"),
    (3, "w -> F == ^in ;"),
    (3, "w -> F == past ( ^to ) ;"),
    (3, "w -> a { ^to <- 1 ; } ;"),
    (3, "w -> a { s <- ^in ; } ;"),
    (3, "monitor ^in ;"),
    (3, "monitor x , ^limit ;"),
    (3, "monitor x ^limit y to 1 in 2 ;"),
    (3, "monitor x ; ^limit y to 1 in 2 ;"),
    (4, "limit ^zz to 1 in 2 ;"),
    (4, "limit ^a to 1 in 2 ;"),
    (4, "limit ^F to 1 in 2 ;"),
    (4, "limit ^s to 1 in 2 ;"),
    (4, "limit ^d to 1 in 2 ;"),
    (4, "limit ^X to 1 in 2 ;"),
    (4, "limit ^w to 1 in 2 ; w -> a ;"),
    (4, "w -> x ; limit ^ww to 5000 in 0 ;"),
    (5, "limit x to 1 in 2 ; ^x -> a ;"),
    (6, "limit x to 1 in 2 ; input u [ ^64 : 0 ] ;"),
    (7, "EIGHT ^limit z to 0 in 1 ;"),
    (7, "EIGHT ^limit two to 2 in 1 ;"),
    (7, "EIGHT ^limit ;"),
    (7, "EIGHT w -> a ; ^limit $ ;"),
    (9, "w -> a & ! a ; limit w to 0 in 2 ; monitor w ;"),
    (21, "limit x to ^1024 in 1024 ;"),
    (21, "limit x to ^1024 in 1025 ;"),
    (21, "limit x to ^1024 in zz ;"),
    (21, "limit x to ^01024 $ ;"),
    (21, "limit x to ^18446744073709551615 in 1 ;"),
    (21, "limit x to ^4294967296 in 1 ;"),
    (21, "limit x to 0 in ^0 ;"),
    (21, "limit x to 1 in ^0 ;"),
    (21, "limit x to 1 in ^1 ;"),
    (21, "limit x to 64 in ^63 ;"),
    (21, "limit x to 1023 in ^1023 ;"),
    (21, "limit x to 1023 in ^1025 ;"),
    (21, "limit x to 5 in ^1025 zz ;"),
    (21, "limit x to 5 in ^18446744073709551615 ;"),
    (21, "limit x to 5 in ^4294967302 ;"),
    (22, "limit ^two to 1 in 2 ;"),
    (22, "limit ^either to 1 in 2 ;"),
    (22, "limit ^star to 1 in 2 ;"),
    (22, "limit ^pipe to 1 in 2 ;"),
    (22, "w -> ( two ) ; limit ^w to 1 in 2 ;"),
    (22, "w -> ( x ) * ; limit ^w to 1 in 2 ;"),
    (22, "limit ^two to 5000 in 0 ;"),
    (22, "limit ^two 1 in 2 ;"),
    (22, "limit ^either $"),
];

/// A text around the statement.
pub fn formed(random: &mut Random) -> Formed {
    let &(number, statements) = random.pick(STATEMENTS);
    let tokens = format!("{AROUND} {} p -> x || ! a ; monitor p , either ;", statements.replace("EIGHT", EIGHT));
    // A monitor statement of the form's own ends the text.
    let tokens = if number == 9 { tokens.replace(" p -> x || ! a ; monitor p , either ;", "") } else { tokens };
    let (text, byte) = past::laid_out(random, &tokens);
    Formed { text, number, byte }
}

#[cfg(test)]
mod tests {
    use super::*;
    use second::Place;
    use std::collections::BTreeSet;

    /// `second` answers as the forms say, number and byte.
    #[test]
    fn every_form_is_judged_as_it_says() {
        let mut numbers = BTreeSet::new();
        for seed in 0..10_000 {
            let Formed { text, number, byte } = formed(&mut Random::new(seed));
            let refusal = second::open(text.as_bytes()).err();
            let at = refusal.and_then(|refusal| if let Place::Byte(byte) = refusal.place { Some(byte) } else { None });
            assert_eq!((refusal.map_or(0, |refusal| refusal.number()), at), (number, byte), "in\n{text}");
            numbers.insert(number);
        }
        assert_eq!(numbers.into_iter().collect::<Vec<u8>>(), [0, 2, 3, 4, 5, 6, 7, 9, 21, 22]);
    }

    /// All texts are accepted but those with a ninth limit.
    #[test]
    fn every_text_is_accepted_or_has_a_ninth_limit() {
        let mut ninth = 0;
        for seed in 0..5000 {
            let text = text(&mut Random::new(seed));
            let limits = text.matches("limit ").count();
            let number = second::open(text.as_bytes()).map_or_else(|refusal| refusal.number(), |_| 0);
            assert_eq!(number, if limits > MOST { 7 } else { 0 }, "{text}");
            ninth += u64::from(limits > MOST);
        }
        assert!(ninth > 200, "{ninth}");
    }

    /// All that a window may be is there, each with limits that allow none, some and all but one of its ticks.
    #[test]
    fn windows_and_limits_are_of_all_lengths() {
        let texts: String = (0..5000).map(|seed| text(&mut Random::new(seed))).collect();
        for window in [1, 2, 3, 63, 64, 65, 1022, 1023, 1024] {
            for most in [0, window / 2, window - 1] {
                assert!(texts.contains(&format!(" to {most} in {window};")), "{most} in {window}");
            }
        }
        for form in ["monitor x, p;", "monitor p, p;", "to 1in 2;", "q || !a", "r @ (a || !a)"] {
            assert!(texts.contains(form), "{form}");
        }
    }
}

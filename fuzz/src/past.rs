//! Texts around the literal `wire == past(wire)`: right ones of many forms, and ones with one fault, each with the number that refuses it and the token
//! at fault. And what a case shows of the literal: the fields that it holds still, and whether a bad tick is one for moving them.

use crate::compare::words;
use crate::random::Random;
use crate::Case;
use second::{Answer, Watch};

/// A form, in tokens with a space between them: the number that refuses it, or 0 if it is accepted, and the tokens, of which the one at fault has a `^`
/// before it (for 9 to 12, which name no byte, none has).
type Form = (u8, &'static str);

/// Declared in every text before the form: wires, two fields of one width, two stores, defines without and with the literal, and a production.
const DECLARED: &str = "input a ; input b ; input F [ H : 0 ] ; input G [ H : 0 ] ; internal s [ H : 0 ] = 1 ; internal t = 0 ; \
                        define d = a & t == 0 ; define held = F == past ( F ) & a == past ( a ) ; q -> a || ! a ;";

/// Letters: in the names declared, without wire b.
const LETTERS: &[Form] = &[
    (0, "a == past ( a )"),
    (0, "F == past ( F )"),
    (0, "a & a == past ( a )"),
    (0, "! a & a == past ( a )"),
    (0, "a [ 0 ] & a == past ( a )"),
    (0, "F == 1 & F == past ( F )"),
    (0, "F == past ( F ) & F == 0"),
    (0, "F == past ( F ) & F [ 0 ] & ! F [ 1 ]"),
    (0, "F == past ( F ) & F == past ( F )"),
    (0, "F == past ( F ) & G == past ( G ) & a == past ( a )"),
    (0, "F == past ( F ) & F == s"),
    (0, "F == s & s == 3 & F == past ( F ) & G == past ( G )"),
    (0, "held"),
    (0, "held & d & held"),
    (0, "held & G == past ( G ) & F == s"),
    (0, "F == past ( F ) { s <- F ; }"),
    (0, "F == past ( F ) & G == s { s <- G ; t <- 1 ; }"),
    (3, "F == past ( ^G )"),
    (3, "F == past ( ^a )"),
    (3, "a == past ( ^b )"),
    (3, "F == past ( ^s )"),
    (3, "F == past ( ^d )"),
    (3, "F == past ( ^held )"),
    (3, "F == past ( ^q )"),
    (3, "F == past ( ^p )"),
    (3, "F == past ( ^zz )"),
    (3, "F == past ( ^f )"),
    (3, "F == past ( ^FF )"),
    (3, "a == past ( ^aa )"),
    (3, "F == past ( ^past )"),
    (3, "F == past ( ^past ( F ) )"),
    (3, "F == past ( ^input )"),
    (3, "F == past ( ^monitor )"),
    (3, "F == past ( ^0 )"),
    (3, "F == past ( ^) & a"),
    (3, "F == past ( ^( F ) )"),
    (3, "a == past ( ^( a ) )"),
    (3, "F == past ( ^! F )"),
    (3, "F == past ( F ^[ 0 ] )"),
    (3, "F == past ( F ^& F )"),
    (3, "F == past ( F ^, F )"),
    (3, "F == past ( F ^F )"),
    (3, "F == past ( F ^== 1 )"),
    (3, "F == past ^F"),
    (3, "F == past ^[ F ]"),
    (3, "F == past ^) & a"),
    (3, "F == past ^& a"),
    (3, "F == past ^past ( F )"),
    (3, "F == past ( F ) ^( F )"),
    (3, "F == past ( F ) ^[ 0 ]"),
    (3, "F == past ( F ) ^== 1"),
    (3, "F == past ( F ) ^! a"),
    (3, "F == past ( F ) ^F"),
    (3, "F == ^! past ( F )"),
    (3, "F == ^( past ( F ) )"),
    (3, "! a ^== past ( a )"),
    (3, "! F ^== past ( F )"),
    (3, "a [ 0 ] ^== past ( a [ 0 ] )"),
    (3, "F [ 0 ] ^== past ( F [ 0 ] )"),
    (3, "! F [ 0 ] ^== past ( F )"),
    (3, "s == ^past ( s )"),
    (3, "s == ^past ( F )"),
    (3, "d ^== past ( d )"),
    (3, "a ^= past ( a )"),
    (3, "^past"),
    (3, "^past ( F )"),
    (3, "^past ( F ) == F"),
    (3, "^past == past ( past )"),
    (3, "! ^past"),
    (3, "! ^past ( a )"),
    (3, "a { s <- ^past ( F ) ; }"),
    (3, "a { s <- F ^== past ( F ) ; }"),
    (3, "a { ^past <- 1 ; }"),
    (2, "F == past ( ^$ )"),
    (2, "F == past ( ^a_name_of_18_chars )"),
    (4, "^zz == past ( zz )"),
    (4, "^p == past ( p )"),
    (4, "held & F == ^zz"),
    (6, "^F = past ( F )"),
    (6, "^F & F == past ( F )"),
    (7, "F == s & s == 3 & F == past ( F ) & ^s == 1"),
    (7, "F == s & F == past ( F ) & s == 3 & a == ^t"),
    (7, "held & F == s & s == 3 & ^d"),
    (9, "a & ! a & a == past ( a )"),
    (9, "F == past ( F ) & F == 1 & F == 2"),
];

/// The body of a production around a letter, which stands for `X`.
const AROUND: &[&str] = &["X", "X , b", "b , X", "b & X || ! b", "( b & X ) * , ! b", "( X ) @ ( b )", "b @ ( X ) || ! b"];

/// Bodies of a production.
const BODIES: &[Form] = &[
    (0, "a & F == past ( F ) || ! a"),
    (0, "( a & F == past ( F ) & G == past ( G ) ) * , ! a"),
    (0, "a & F == past ( F ) @ ( b , G == past ( G ) ) || ! a"),
    (0, "held , ( F == past ( F ) , a ) , G == past ( G )"),
    (0, "F == 0 & F == past ( F ) || F == 1 & F == past ( F ) || F == 2"),
    (3, "q ^== past ( q )"),
    (10, "( a == past ( a ) ) *"),
    (10, "a @ ( F == past ( F ) ) *"),
    (11, "a @ ( b , ( F == past ( F ) ) * )"),
    (12, "a == past ( a ) || ! a"),
    (12, "a & F == past ( F ) || a & G == past ( G )"),
    (12, "F == past ( F ) * , a"),
    (12, "F == past ( F ) || held"),
];

/// Statements, below the declarations: the word where a name stands, names that are nearly the word, and literals that do not end.
const STATEMENTS: &[Form] = &[
    (0, "input pasta ;"),
    (0, "input Past [ 1 : 0 ] ;"),
    (0, "input pas ; input ast ;"),
    (0, "internal past_ = 0 ;"),
    (0, "define past0 = a ;"),
    (0, "_past -> a ;"),
    (0, "input pastpast ; define u = pastpast == past ( pastpast ) ;"),
    (0, "define u = F == past ( F ) & held ; r -> u & b || ! b ;"),
    (0, "input W [ 0 : 0 ] ; r -> W == past ( W ) & W ;"),
    (3, "input ^past ;"),
    (3, "input ^past [ 3 : 0 ] ;"),
    (3, "input u [ ^past : 0 ] ;"),
    (3, "internal ^past = 0 ;"),
    (3, "internal ^past [ 3 : 0 ] = 0 ;"),
    (3, "internal u = ^past ;"),
    (3, "internal u = ^past ( a ) ;"),
    (3, "define ^past = a ;"),
    (3, "define u = ^past & a ;"),
    (3, "define u = F == past ( ^u ) ;"),
    (3, "define u = F == past ( ^G ) ;"),
    (3, "define u = F == past ( F ^;"),
    (3, "define u = F == past ^;"),
    (3, "define u = ! a ^== past ( a ) ;"),
    (3, "^past -> a ;"),
    (3, "^past ;"),
    (3, "r -> ^past ;"),
    (3, "r -> F == past ^;"),
    (3, "r -> F == past ( ^;"),
    (3, "r -> F == past ( F ^;"),
    (3, "r -> F == past ( F ^|| a ;"),
    (3, "r -> ( F == past ( F ) ^;"),
    (3, "r -> F == past ( F ) ^) ;"),
    (3, "monitor ^past ;"),
    (3, "monitor q , ^past ;"),
    (5, "input ^held ;"),
];

/// The deepest parentheses: those of the literal are no level.
const DEEPEST: usize = 32;

/// A text, the number that refuses it (0 for none), and the byte of the token at fault, if the number names one.
pub struct Formed {
    pub text: String,
    pub number: u8,
    pub byte: Option<usize>,
}

/// A text around the literal.
pub fn formed(random: &mut Random) -> Formed {
    let (number, tokens) = match random.below(8) {
        0..=3 => in_a_letter(random),
        4 | 5 => nested(random),
        6 => in_a_body(random),
        _ => in_a_statement(random),
    };
    let widest = if random.once_in(4) { 25 } else { 3 };
    let last_bit = 1 + random.below(widest);
    let (text, byte) = laid_out(random, &tokens.replace(" H ", &format!(" {last_bit} ")));
    Formed { text, number, byte }
}

fn with_body(body: &str) -> String {
    format!("{DECLARED} p -> {body} ; monitor p ;")
}

fn in_a_letter(random: &mut Random) -> (u8, String) {
    let &(number, letter) = random.pick(LETTERS);
    (number, with_body(&random.pick(AROUND).replace('X', letter)))
}

/// A letter in about as many parentheses as there may be, or one more.
fn nested(random: &mut Random) -> (u8, String) {
    let &(number, letter) = random.pick(LETTERS);
    let levels = DEEPEST - 2 + random.below(4);
    let (open, close) = ("( ".repeat(levels), " )".repeat(levels));
    if levels > DEEPEST {
        let unmarked = letter.replace('^', "");
        return (7, with_body(&format!("{}^( {unmarked}{close}", &open[..2 * DEEPEST])));
    }
    (number, with_body(&format!("{open}{letter}{close}")))
}

fn in_a_body(random: &mut Random) -> (u8, String) {
    let &(number, body) = random.pick(BODIES);
    (number, with_body(body))
}

fn in_a_statement(random: &mut Random) -> (u8, String) {
    let &(number, statement) = random.pick(STATEMENTS);
    (number, format!("{DECLARED} {statement} p -> a & F == past ( F ) || ! a ; monitor p , q ;"))
}

/// Tokens with white space between them, mostly little, but where two would grow together; and the byte of the one marked.
pub fn laid_out(random: &mut Random, tokens: &str) -> (String, Option<usize>) {
    let grows = |c: Option<char>| c.is_some_and(|c| c.is_ascii_alphanumeric() || c == '_');
    let sign = |c: Option<char>| c.is_some_and(|c| "=|-<>".contains(c));
    let (mut text, mut at) = (String::new(), None);
    let wide = random.once_in(4);
    for token in tokens.split(' ') {
        let marked = token.starts_with('^');
        let token = token.trim_start_matches('^');
        let (last, first) = (text.chars().last(), token.chars().next());
        if grows(last) && grows(first) || sign(last) && sign(first) || random.once_in(if wide { 2 } else { 5 }) {
            text += random.pick::<&str>(if wide { &["\n", "\t", " \r\n", "   "] } else { &[" ", " ", " ", "\n"] });
        }
        if marked {
            at = Some(text.len());
        }
        text += token;
    }
    (text, at)
}

/// The names, numbers and single signs of a text, and the white space between them.
pub fn parts(text: &str) -> Vec<&str> {
    let in_name = |c: char| c.is_ascii_alphanumeric() || c == '_';
    let mut parts = Vec::new();
    let mut rest = text;
    while let Some(first) = rest.chars().next() {
        let end = match first {
            '0'..='9' => rest.find(|c: char| !c.is_ascii_digit()).unwrap_or(rest.len()),
            _ if in_name(first) => rest.find(|c| !in_name(c)).unwrap_or(rest.len()),
            _ => first.len_utf8(),
        };
        let (part, behind) = rest.split_at(end);
        parts.push(part);
        rest = behind;
    }
    parts
}

/// The fields that the literals of an accepted text hold still, each as the word of its bits.
pub fn fields(text: &[u8]) -> Vec<u64> {
    let text = String::from_utf8_lossy(text);
    let tokens: Vec<&str> = parts(&text).into_iter().filter(|part| !part.trim().is_empty()).collect();
    let held = |name: &str| tokens.windows(3).any(|three| three == ["past", "(", name]);
    let (mut fields, mut low) = (Vec::new(), 0);
    for declared in tokens.windows(4).filter(|four| four[0] == "input") {
        let width = if declared[2] == "[" { 1 + declared[3].parse::<u32>().unwrap_or(0) } else { 1 };
        if held(declared[1]) {
            fields.push(u64::MAX >> (64 - width.clamp(1, 64)) << low);
        }
        low = (low + width).min(63);
    }
    fields
}

/// Whether a case ends at a bad tick which, its fields held as the literals say and all else as it is, would have been ok.
pub fn moved(case: &Case) -> bool {
    let Ok(program) = second::open(&case.text) else {
        return false;
    };
    let held = fields(&case.text).into_iter().fold(0, |all, field| all | field);
    let mut watch = Watch::new(&program);
    let mut before = 0;
    for word in words(&case.trace) {
        match watch.look(word) {
            Answer::Ok => (),
            Answer::Bad(_) => return watch.look(before & held | word & !held) == Answer::Ok,
            Answer::Refused(_) => return false,
        }
        watch.take(word);
        before = word;
    }
    false
}

#[cfg(test)]
mod tests {
    use super::*;
    use crate::compare::record;
    use second::Place;
    use std::collections::BTreeSet;

    /// `second` answers as the forms say, number and byte.
    #[test]
    fn every_form_is_judged_as_it_says() {
        let mut numbers = BTreeSet::new();
        for seed in 0..20_000 {
            let Formed { text, number, byte } = formed(&mut Random::new(seed));
            let refusal = second::open(text.as_bytes()).err();
            let at = refusal.and_then(|refusal| if let Place::Byte(byte) = refusal.place { Some(byte) } else { None });
            assert_eq!((refusal.map_or(0, |refusal| refusal.number()), at), (number, byte), "in\n{text}");
            numbers.insert(number);
        }
        assert_eq!(numbers.into_iter().collect::<Vec<u8>>(), [0, 2, 3, 4, 5, 6, 7, 9, 10, 11, 12]);
    }

    /// A name may stand right behind a number.
    #[test]
    fn names_and_numbers_are_parted() {
        assert_eq!(parts("limit x to 12in 3;"), ["limit", " ", "x", " ", "to", " ", "12", "in", " ", "3", ";"]);
        assert_eq!(parts("a1 -> 7a_2||!x"), ["a1", " ", "-", ">", " ", "7", "a_2", "|", "|", "!", "x"]);
    }

    #[test]
    fn fields_are_those_that_are_held() {
        let text = b"input a; input F [ 3:0]; internal s = 0;input c;input G[7:0]; define d = F==past(\nF ); p -> d & G == past(G) & c; monitor p;";
        assert_eq!(fields(text), [0b1111 << 1, 0xff << 6]);
        assert_eq!(fields(b"input D[63:0]; p -> D == past(D); monitor p;"), [u64::MAX]);
        assert_eq!(fields(b"input a; p -> a; monitor p;"), []);
    }

    #[test]
    fn a_move_is_told_from_other_faults() {
        let text = b"input a; input F[3:0]; p -> a & F == past(F) || !a & F == 0; monitor p;";
        let trace = |words: &[u64]| -> Vec<u8> {
            let before = [0].into_iter().chain(words.iter().copied());
            before.zip(words).flat_map(|(before, &word)| record(before, word)).collect()
        };
        let case = |words: &[u64]| Case { text: text.to_vec(), trace: trace(words) };
        assert!(moved(&case(&[1, 0, 0b11])));
        assert!(moved(&case(&[0b11])));
        assert!(!moved(&case(&[1, 0, 1])));
        assert!(!moved(&Case { text: b"input a; p -> a; monitor p;".to_vec(), trace: trace(&[1, 0]) }));
        assert!(!moved(&Case { text: b"input".to_vec(), trace: vec![] }));
    }
}

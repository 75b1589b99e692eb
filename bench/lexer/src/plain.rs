//! The same lexer in plain Rust, with the same answers: a static table of classes as there, but of numbers, and loops over an index.

const SIGNS: [&[u8]; 18] = [
    b";", b",", b"@", b"*", b"&", b"!", b"(", b")", b"[", b"]", b"{", b"}", b":", b"=", b"==", b"||", b"->", b"<-",
];

#[derive(Clone, Copy)]
enum Word {
    Input,
    Internal,
    Define,
    Monitor,
}

enum Kind {
    Name,
    Word(Word),
    Number(u64),
    Sign(u8),
    End,
    Knot,
}

struct Token {
    kind: Kind,
    place: usize,
    after: usize,
}

const NONE: u8 = 0;
const WHITE: u8 = 1;
const DIGIT: u8 = 2;
const LETTER: u8 = 3;
/// The class of a byte that begins a sign is this and the number of the longest such sign.
const SIGN: u8 = 4;

static CLASS: [u8; 256] = {
    let mut table = [NONE; 256];
    let mut b = 0;
    while b < 256 {
        table[b] = match b as u8 {
            b' ' | b'\t' | b'\n' | b'\r' => WHITE,
            b'0'..=b'9' => DIGIT,
            b'a'..=b'z' | b'A'..=b'Z' | b'_' => LETTER,
            _ => NONE,
        };
        b += 1;
    }
    let mut i = 0;
    while i < SIGNS.len() {
        table[SIGNS[i][0] as usize] = SIGN + i as u8;
        i += 1;
    }
    table
};

fn class(b: u8) -> u8 {
    CLASS[b as usize]
}

/// The end of the run of bytes of the classes from `low` to `high` that begins at `from`.
fn run_end(text: &[u8], from: usize, low: u8, high: u8) -> usize {
    let mut i = from;
    while i < text.len() && (low..=high).contains(&class(text[i])) {
        i += 1;
    }
    i
}

fn knot(place: usize) -> Token {
    Token { kind: Kind::Knot, place, after: place }
}

fn name(text: &[u8], place: usize) -> Token {
    let after = run_end(text, place, DIGIT, LETTER);
    if after - place > 16 {
        return knot(place);
    }
    let kind = match &text[place..after] {
        b"input" => Kind::Word(Word::Input),
        b"internal" => Kind::Word(Word::Internal),
        b"define" => Kind::Word(Word::Define),
        b"monitor" => Kind::Word(Word::Monitor),
        _ => Kind::Name,
    };
    Token { kind, place, after }
}

fn number(text: &[u8], place: usize) -> Token {
    let mut value: u64 = 0;
    let mut after = place;
    while after < text.len() && class(text[after]) == DIGIT {
        let digit = (text[after] - b'0') as u64;
        match value.checked_mul(10).and_then(|v| v.checked_add(digit)) {
            Some(v) => value = v,
            None => return knot(place),
        }
        after += 1;
    }
    Token { kind: Kind::Number(value), place, after }
}

fn sign(text: &[u8], place: usize, class: u8) -> Token {
    if class < SIGN {
        return knot(place);
    }
    let sign = class - SIGN;
    if sign < 14 {
        return Token { kind: Kind::Sign(sign), place, after: place + 1 };
    }
    if text.get(place + 1) == Some(&b"=|>-"[sign as usize - 14]) {
        return Token { kind: Kind::Sign(sign), place, after: place + 2 };
    }
    if sign == 14 {
        return Token { kind: Kind::Sign(13), place, after: place + 1 };
    }
    knot(place)
}

fn token_at(text: &[u8], at: usize) -> Token {
    let place = run_end(text, at, WHITE, WHITE);
    if text.len() <= place {
        return Token { kind: Kind::End, place: text.len(), after: text.len() };
    }
    match class(text[place]) {
        DIGIT => number(text, place),
        LETTER => name(text, place),
        class => sign(text, place, class),
    }
}

/// Kind and value of a token as one number.
fn weigh(kind: &Kind) -> u64 {
    match kind {
        Kind::Name => 1,
        Kind::Word(Word::Input) => 2,
        Kind::Word(Word::Internal) => 3,
        Kind::Word(Word::Define) => 4,
        Kind::Word(Word::Monitor) => 5,
        Kind::Number(n) => *n,
        Kind::Sign(n) => *n as u64,
        Kind::End => 6,
        Kind::Knot => 7,
    }
}

fn fold(text: &[u8], mut seen: impl FnMut(&Token)) {
    let mut at = 0;
    loop {
        let token = token_at(text, at);
        seen(&token);
        if matches!(token.kind, Kind::End | Kind::Knot) {
            return;
        }
        at = token.after;
    }
}

pub fn checksum(text: &[u8]) -> u64 {
    let mut sum: u64 = 0;
    fold(text, |t| {
        sum = sum.wrapping_add(weigh(&t.kind)).wrapping_add(t.place as u64).wrapping_add(t.after as u64);
    });
    sum
}

pub fn count(text: &[u8]) -> usize {
    let mut n = 0;
    fold(text, |_| n += 1);
    n
}

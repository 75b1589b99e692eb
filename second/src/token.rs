//! The lexer: cuts the rule text into tokens, one at a time.

use crate::limit;

/// One token of the rule text.
#[derive(Clone, Copy, Debug, PartialEq, Eq)]
pub enum Token<'t> {
    Name(&'t [u8]),
    Number(u64),
    // The reserved words.
    Input,
    Internal,
    Define,
    Monitor,
    Past,
    Limit,
    To,
    In,
    // The signs.
    Semicolon,
    Comma,
    At,
    Star,
    And,
    Not,
    OpenParen,
    CloseParen,
    OpenBracket,
    CloseBracket,
    OpenBrace,
    CloseBrace,
    Colon,
    Assign,
    Equals,
    Or,
    Produces,
    Takes,
    /// No token stands here, or a name or number is too long
    /// (the specification's "knot").
    Knot,
    /// The end of the text.
    End,
}

/// The signs, those of two characters first so that the longest is taken.
const SIGNS: [(&[u8], Token<'static>); 18] = [
    (b"==", Token::Equals),
    (b"||", Token::Or),
    (b"->", Token::Produces),
    (b"<-", Token::Takes),
    (b";", Token::Semicolon),
    (b",", Token::Comma),
    (b"@", Token::At),
    (b"*", Token::Star),
    (b"&", Token::And),
    (b"!", Token::Not),
    (b"(", Token::OpenParen),
    (b")", Token::CloseParen),
    (b"[", Token::OpenBracket),
    (b"]", Token::CloseBracket),
    (b"{", Token::OpenBrace),
    (b"}", Token::CloseBrace),
    (b":", Token::Colon),
    (b"=", Token::Assign),
];

/// Reserved words, each with its token; every other word is a name.
pub type Reserved = &'static [(&'static [u8], Token<'static>)];

/// The reserved words of a rule text.
pub const RULE_WORDS: Reserved = &[
    (b"input", Token::Input),
    (b"internal", Token::Internal),
    (b"define", Token::Define),
    (b"monitor", Token::Monitor),
    (b"past", Token::Past),
    (b"limit", Token::Limit),
    (b"to", Token::To),
    (b"in", Token::In),
];

/// Reads tokens from front to back. Which words are reserved depends on the
/// kind of text, so it is given their list.
pub struct Lexer<'t> {
    text: &'t [u8],
    at: usize,
    reserved: Reserved,
}

impl<'t> Lexer<'t> {
    pub fn new(text: &'t [u8], reserved: Reserved) -> Self {
        Lexer {
            text,
            at: 0,
            reserved,
        }
    }

    /// The next token and its first byte; at the end, the text's length.
    pub fn advance(&mut self) -> (Token<'t>, usize) {
        self.at += run_length(&self.text[self.at..], is_blank);
        let begin = self.at;
        let (token, length) = token_at(&self.text[begin..], self.reserved);
        self.at += length;
        (token, begin)
    }
}

/// The token that begins at the first byte of `rest`, and its length.
fn token_at(rest: &[u8], reserved: Reserved) -> (Token<'_>, usize) {
    match rest.first() {
        None => (Token::End, 0),
        Some(&byte) if byte.is_ascii_digit() => {
            let length = run_length(rest, |b| b.is_ascii_digit());
            (number(&rest[..length]), length)
        }
        Some(&byte) if is_name_byte(byte) => {
            let length = run_length(rest, is_name_byte);
            (word(&rest[..length], reserved), length)
        }
        Some(_) => sign(rest),
    }
}

fn sign(rest: &[u8]) -> (Token<'_>, usize) {
    for (spelling, token) in SIGNS {
        if rest.starts_with(spelling) {
            return (token, spelling.len());
        }
    }
    (Token::Knot, 0)
}

/// A reserved word or a name.
fn word(bytes: &[u8], reserved: Reserved) -> Token<'_> {
    for &(spelling, token) in reserved {
        if bytes == spelling {
            return token;
        }
    }
    if bytes.len() > limit::NAME_BYTES {
        return Token::Knot;
    }
    Token::Name(bytes)
}

fn number(digits: &[u8]) -> Token<'_> {
    let mut value: u64 = 0;
    for digit in digits {
        let next = value
            .checked_mul(10)
            .and_then(|v| v.checked_add(u64::from(digit - b'0')));
        match next {
            Some(next) => value = next,
            None => return Token::Knot,
        }
    }
    Token::Number(value)
}

/// How many bytes at the front of `bytes` satisfy `belongs`.
fn run_length(bytes: &[u8], belongs: impl Fn(u8) -> bool) -> usize {
    bytes.iter().take_while(|&&b| belongs(b)).count()
}

fn is_blank(byte: u8) -> bool {
    matches!(byte, b' ' | b'\t' | b'\n' | b'\r')
}

fn is_name_byte(byte: u8) -> bool {
    byte.is_ascii_alphanumeric() || byte == b'_'
}

#[cfg(test)]
mod tests {
    use super::*;

    fn tokens(text: &str) -> Vec<(Token<'_>, usize)> {
        tokens_with(RULE_WORDS, text)
    }

    fn tokens_with(reserved: Reserved, text: &str) -> Vec<(Token<'_>, usize)> {
        let mut lexer = Lexer::new(text.as_bytes(), reserved);
        let mut found = Vec::new();
        loop {
            let (token, at) = lexer.advance();
            found.push((token, at));
            if matches!(token, Token::End | Token::Knot) {
                return found;
            }
        }
    }

    #[test]
    fn the_longest_sign_is_taken() {
        assert_eq!(
            tokens("=== ||->\t<-"),
            [
                (Token::Equals, 0),
                (Token::Assign, 2),
                (Token::Or, 4),
                (Token::Produces, 6),
                (Token::Takes, 9),
                (Token::End, 11)
            ]
        );
    }

    #[test]
    fn names_and_numbers_take_all_they_can() {
        assert_eq!(
            tokens("12ab_3 inputs Input input"),
            [
                (Token::Number(12), 0),
                (Token::Name(b"ab_3"), 2),
                (Token::Name(b"inputs"), 7),
                (Token::Name(b"Input"), 14),
                (Token::Input, 20),
                (Token::End, 25)
            ]
        );
    }

    #[test]
    fn the_list_says_which_words_are_reserved() {
        let text = "past define pasts Past";
        let names = [
            (Token::Name(b"past"), 0),
            (Token::Name(b"define"), 5),
            (Token::Name(b"pasts"), 12),
            (Token::Name(b"Past"), 18),
            (Token::End, 22),
        ];
        assert_eq!(tokens_with(&[], text), names);
        let found = tokens_with(RULE_WORDS, text);
        assert_eq!(found[..2], [(Token::Past, 0), (Token::Define, 5)]);
        assert_eq!(found[2..], names[2..]);
    }

    #[test]
    fn the_words_of_a_limit_are_reserved_as_they_stand() {
        let found = tokens("limit to in");
        let words = [(Token::Limit, 0), (Token::To, 6), (Token::In, 9)];
        assert_eq!(found[..3], words);
        for name in ["limits", "Limit", "to_", "To", "t", "IN", "in2", "i"] {
            assert_eq!(tokens(name)[0].0, Token::Name(name.as_bytes()));
        }
    }

    #[test]
    fn numbers_up_to_two_to_the_64() {
        let zeros = "0".repeat(100);
        assert_eq!(tokens("18446744073709551615")[0].0, Token::Number(u64::MAX));
        assert_eq!(tokens("18446744073709551616")[0].0, Token::Knot);
        assert_eq!(tokens(&format!("{zeros}7"))[0].0, Token::Number(7));
        assert_eq!(tokens("99999999999999999999999")[0].0, Token::Knot);
    }

    #[test]
    fn every_byte_that_begins_no_token_is_a_knot() {
        let begins =
            b"abcdefghijklmnopqrstuvwxyzABCDEFGHIJKLMNOPQRSTUVWXYZ_0123456789;,@*&!()[]{}:=";
        for byte in 0..=255u8 {
            let text = [byte];
            let (token, at) = Lexer::new(&text, RULE_WORDS).advance();
            let blank = b" \t\r\n".contains(&byte);
            assert_eq!(token == Token::End, blank, "byte {byte}");
            assert_eq!(
                token == Token::Knot,
                !blank && !begins.contains(&byte),
                "byte {byte}"
            );
            assert_eq!(at, usize::from(blank));
        }
    }

    #[test]
    fn lone_halves_of_signs_are_knots() {
        for text in ["|", "-", "<", "| |", "- >", "< -"] {
            assert_eq!(tokens(text), [(Token::Knot, 0)]);
        }
        assert_eq!(tokens("|||"), [(Token::Or, 0), (Token::Knot, 2)]);
    }

    #[test]
    fn names_up_to_16_bytes() {
        assert_eq!(
            tokens("abcdefghijklmnop")[0].0,
            Token::Name(b"abcdefghijklmnop")
        );
        assert_eq!(tokens("abcdefghijklmnopq")[0].0, Token::Knot);
    }
}

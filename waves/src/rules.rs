//! The names of wires and monitors in a rule text, and its limits.
//!
//! This is no reader of the grammar. The library is asked first, and only texts that it accepts (or refuses with 8 to 12, which come after the whole
//! text was read) get here. In these `input`, `limit` and `monitor` are reserved words, so each token `input` is followed by a name and then by `;` or
//! by `[ h : 0 ] ;`, each token `limit` by a name, `to`, a number, `in` and a number, and the one token `monitor` by the names of the monitors up to
//! `;`. Nothing else of the text is needed here; `letters` reads the productions.

use crate::{library, refusals};

/// An input: bits `low` to `low + width - 1` of a word.
#[derive(Debug, PartialEq)]
pub struct Wire {
    pub name: String,
    pub low: u32,
    pub width: u32,
}

impl Wire {
    /// The largest value of the wire.
    pub fn largest(&self) -> u64 {
        u64::MAX >> (64 - self.width)
    }

    /// The name, and for a field its bits.
    pub fn label(&self) -> String {
        if self.width == 1 {
            return self.name.clone();
        }
        format!("{}[{}:0]", self.name, self.width - 1)
    }

    /// The wire's value in a word.
    pub fn value(&self, word: u64) -> u64 {
        word >> self.low & self.largest()
    }

    /// The word with the wire's value changed.
    pub fn changed(&self, word: u64, value: u64) -> u64 {
        word & !(self.largest() << self.low) | value << self.low
    }
}

/// A limit: letters that came through the production are met on at most `most` of any `window` ticks in a row.
#[derive(Debug, PartialEq)]
pub struct Limit {
    pub production: String,
    pub most: u32,
    pub window: u32,
}

impl Limit {
    /// The limit as it is declared, without the first word.
    pub fn label(&self) -> String {
        format!("{} to {} in {}", self.production, self.most, self.window)
    }
}

/// What is bad by number 32 is so by the first limit, by 33 by the second, and so on.
const FIRST_LIMIT: usize = 32;

/// The wires of a text from bit 0 on, its limits and its monitors from number 0 on, and the text itself.
#[derive(Debug, Default, PartialEq)]
pub struct Rules {
    pub wires: Vec<Wire>,
    pub limits: Vec<Limit>,
    pub monitors: Vec<String>,
    pub text: String,
}

impl Rules {
    /// The monitor or the limit that a bad tick names by a number, in words.
    pub fn named(&self, number: usize) -> String {
        let Some(limit) = number.checked_sub(FIRST_LIMIT) else {
            return format!("monitor {number} ({})", self.monitors.get(number).map_or("", String::as_str));
        };
        format!("limit {limit} ({})", self.limits.get(limit).map_or(String::new(), Limit::label))
    }
}

/// Wires and monitors of a text that the library accepts, or why it refuses the text.
pub fn open(text: &[u8]) -> Result<Rules, String> {
    let sheet = String::from_utf8_lossy(&library::sheet(text, &[])).into_owned();
    match sheet.strip_prefix("refused ") {
        Some(place) => Err(refused(text, place)),
        None => names(text).ok_or_else(|| String::from("the wires of the rule text could not be read")),
    }
}

/// A refused text in words; `numbers` is what the sheet says behind `refused`.
fn refused(text: &[u8], numbers: &str) -> String {
    let numbers: Vec<usize> = numbers.split_whitespace().filter_map(|n| n.parse().ok()).collect();
    let (number, place) = match numbers[..] {
        [number, monitor, letter] => (number, format!(" at monitor {monitor}{}, letter {letter}", in_brackets(text, monitor))),
        [number, byte] if number > 1 => (number, at_byte(text, byte)),
        [number, ..] => (number, String::new()),
        [] => (0, String::new()),
    };
    let more = if let [3, byte] = numbers[..] { about(text, byte) } else { "" };
    format!("the rule text is refused {number} ({}){place}: {}{more}", refusals::word(number), refusals::reason(number))
}

/// What is said besides of a misplaced token.
fn about(text: &[u8], byte: usize) -> &'static str {
    let (before, from) = text.split_at(byte.min(text.len()));
    let (before, from) = (String::from_utf8_lossy(before), String::from_utf8_lossy(from));
    let (before, from) = (tokens(&before), tokens(&from));
    if is_about_past(&before, &from) {
        return refusals::PAST;
    }
    if is_about_limits(&before, &from) {
        return refusals::LIMIT;
    }
    ""
}

/// Whether a misplaced token is the word `past`, or `==` before it, or stands where the word's parentheses and name should be.
fn is_about_past(before: &[&str], from: &[&str]) -> bool {
    let is_here = from.starts_with(&["past"]) || from.starts_with(&["=", "=", "past"]);
    is_here || matches!(before, [.., "past"] | [.., "past", "("] | [.., "past", "(", _])
}

/// Whether a misplaced token is `limit`, `to` or `in`, or stands in a limit.
fn is_about_limits(before: &[&str], from: &[&str]) -> bool {
    let is_here = matches!(from, ["limit" | "to" | "in", ..]);
    is_here || before.iter().rev().take_while(|&&token| token != ";").any(|&token| token == "limit")
}

/// The name of a monitor, in brackets behind its number.
fn in_brackets(text: &[u8], monitor: usize) -> String {
    names(text).and_then(|rules| rules.monitors.get(monitor).map(|name| format!(" ({name})"))).unwrap_or_default()
}

/// A byte of a text, with its line and column.
fn at_byte(text: &[u8], byte: usize) -> String {
    let (line, column) = line_and_column(text, byte);
    let end = if byte == text.len() { ", the end of the text" } else { "" };
    format!(" at byte {byte}, line {line}, column {column}{end}")
}

/// The line and the column of a byte, from 1 on. All bytes before the place are tokens or white space, so each is a character.
pub fn line_and_column(text: &[u8], byte: usize) -> (usize, usize) {
    let before = &text[..byte.min(text.len())];
    let line = 1 + before.iter().filter(|&&b| b == b'\n').count();
    let column = 1 + before.iter().rev().take_while(|&&b| b != b'\n').count();
    (line, column)
}

fn names(text: &[u8]) -> Option<Rules> {
    let text = std::str::from_utf8(text).ok()?;
    let mut rules = Rules { text: String::from(text), ..Rules::default() };
    let mut low = 0;
    let mut rest = tokens(text).into_iter();
    while let Some(token) = rest.next() {
        if token == "input" {
            let name = String::from(rest.next()?);
            let width = if rest.next()? == "[" { rest.next()?.parse::<u32>().ok()?.checked_add(1)? } else { 1 };
            rules.wires.push(Wire { name, low, width });
            low = low.checked_add(width).filter(|&bits| bits <= 64)?;
        } else if token == "limit" {
            let production = String::from(rest.next()?);
            let (most, window) = (rest.nth(1)?.parse().ok()?, rest.nth(1)?.parse().ok()?);
            rules.limits.push(Limit { production, most, window });
        } else if token == "monitor" {
            rules.monitors = rest.by_ref().take_while(|&t| t != ";").filter(|&t| t != ",").map(String::from).collect();
        }
    }
    Some(rules)
}

fn tokens(text: &str) -> Vec<&str> {
    placed_tokens(text).into_iter().map(|(_, token)| token).collect()
}

/// The tokens of a text, each behind the byte at which it begins, except that a sign of two characters is cut in two.
pub fn placed_tokens(text: &str) -> Vec<(usize, &str)> {
    let mut tokens = Vec::new();
    let mut rest = text.trim_start();
    while !rest.is_empty() {
        let (token, behind) = rest.split_at(token_length(rest));
        tokens.push((text.len() - rest.len(), token));
        rest = behind.trim_start();
    }
    tokens
}

/// How many bytes the token has that begins here. A name may stand right behind a number.
fn token_length(text: &str) -> usize {
    let in_name = |c: char| c.is_ascii_alphanumeric() || c == '_';
    let end = match text.chars().next() {
        Some('0'..='9') => text.find(|c: char| !c.is_ascii_digit()),
        Some(first) if in_name(first) => text.find(|c| !in_name(c)),
        first => first.map(char::len_utf8),
    };
    end.unwrap_or(text.len())
}

#[cfg(test)]
mod tests {
    use super::*;

    fn wires(text: &str) -> Vec<(String, u32, u32)> {
        open(text.as_bytes()).unwrap().wires.into_iter().map(|w| (w.name, w.low, w.width)).collect()
    }

    fn wire(name: &str, low: u32, width: u32) -> (String, u32, u32) {
        (String::from(name), low, width)
    }

    #[test]
    fn wires_take_their_bits_in_order() {
        let text = "input a;input b[7:0];internal s[7:0]=3;input c; p->a&b==s&c;monitor p;";
        assert_eq!(wires(text), [wire("a", 0, 1), wire("b", 1, 8), wire("c", 9, 1)]);
    }

    #[test]
    fn white_space_may_stand_anywhere() {
        let text = "input\n\ta[7 : 0] ;\r\ninput\tb [ 007\n:\n00 ]\n; p -> a == 0 ;monitor\np\n;\n";
        assert_eq!(wires(text), [wire("a", 0, 8), wire("b", 8, 8)]);
    }

    #[test]
    fn names_that_hold_reserved_words_are_names() {
        let text = "input input_1; input xinput; input monitors; define inputs = input_1; p -> inputs & !xinput & monitors; monitor p;";
        assert_eq!(wires(text), [wire("input_1", 0, 1), wire("xinput", 1, 1), wire("monitors", 2, 1)]);
        let text = "input past_1; input Past[2:0]; input pasts; p -> past_1 & Past == past(Past) & !pasts; monitor p;";
        assert_eq!(wires(text), [wire("past_1", 0, 1), wire("Past", 1, 3), wire("pasts", 4, 1)]);
    }

    #[test]
    fn words_of_limits_are_no_names_but_may_begin_one() {
        let text = "input into; input tor[1:0]; input limits; in_ -> into; limit in_ to 1 in 2; To -> in_ || !into; monitor To;";
        assert_eq!(wires(text), [wire("into", 0, 1), wire("tor", 1, 2), wire("limits", 3, 1)]);
    }

    #[test]
    fn limits_are_numbered_as_declared() {
        let text = "input a; x -> a; limit x to 2 in 8; y -> x; p -> y || !a;limit\ny to\t00in 1;limit x to 1023in 1024; monitor p, x;";
        let rules = open(text.as_bytes()).unwrap();
        assert_eq!(rules.limits.iter().map(Limit::label).collect::<Vec<String>>(), ["x to 2 in 8", "y to 0 in 1", "x to 1023 in 1024"]);
        assert_eq!([0, 1, 2].map(|number| rules.named(number)), ["monitor 0 (p)", "monitor 1 (x)", "monitor 2 ()"]);
        let limits = ["limit 0 (x to 2 in 8)", "limit 1 (y to 0 in 1)", "limit 2 (x to 1023 in 1024)", "limit 3 ()"];
        assert_eq!([32, 33, 34, 35].map(|number| rules.named(number)), limits);
        assert_eq!(open(b"input a; p -> a; monitor p;").unwrap().limits, []);
    }

    #[test]
    fn tokens_are_parted_as_the_library_parts_them() {
        assert_eq!(tokens("limit x_1 to 12in 3;"), ["limit", "x_1", "to", "12", "in", "3", ";"]);
        assert_eq!(tokens("7a8 <-\u{e4}1"), ["7", "a8", "<", "-", "\u{e4}", "1"]);
        assert_eq!(placed_tokens(" 1in\n2"), [(1, "1"), (2, "in"), (5, "2")]);
    }

    #[test]
    fn a_text_may_have_no_wires_or_all_of_them() {
        assert_eq!(wires("internal s = 0; p -> s == 0; monitor p;"), []);
        assert_eq!(wires("input D[63:0]; p -> D == 1; monitor p;"), [wire("D", 0, 64)]);
    }

    #[test]
    fn monitors_are_numbered_as_listed() {
        let rules = open(b"input a; p -> a; q -> !a; monitor p,q , p;").unwrap();
        assert_eq!(rules.monitors, ["p", "q", "p"]);
    }

    #[test]
    fn values_are_cut_out_and_put_in() {
        let field = Wire { name: String::from("f"), low: 4, width: 8 };
        assert_eq!(field.value(0xabcd), 0xbc);
        assert_eq!(field.changed(0xabcd, 0x12), 0xa12d);
        let all = Wire { name: String::from("g"), low: 0, width: 64 };
        assert_eq!(all.value(u64::MAX), u64::MAX);
        assert_eq!(all.changed(5, 7), 7);
    }

    #[test]
    fn texts_with_past_have_their_wires_and_monitors() {
        let rules = open(b"input a; input D[7:0]; define held = D == past(D) & a == past ( a ); p -> held || D == 1 & !a; monitor p;");
        assert!(rules.unwrap_err().starts_with("the rule text is refused 12 (fork) at monitor 0 (p), letter 0: "));
        let rules = open(b"input a; input D[7:0]; define held = D == past(D) & a == past ( a ); p -> a & held || !a; monitor p, p;").unwrap();
        assert_eq!(rules.wires.iter().map(Wire::label).collect::<Vec<String>>(), ["a", "D[7:0]"]);
        assert_eq!(rules.monitors, ["p", "p"]);
    }

    /// Where a misplaced token has to do with `past` it is said how the word stands, and nowhere else.
    #[test]
    fn misplaced_past_is_explained() {
        let said = |rest: &str| open(format!("input a; input F[3:0]; input G[3:0]; internal s = 0; {rest}").as_bytes()).unwrap_err();
        let about_past = [
            "p -> F == past(G); monitor p;",
            "p -> F == past(zz); monitor p;",
            "p -> F == past((F)); monitor p;",
            "p -> F == past(F[0]); monitor p;",
            "p -> F == past(F; monitor p;",
            "p -> F == past F; monitor p;",
            "p -> F == past(",
            "p -> !a == past(a); monitor p;",
            "p -> F[0] == past(F[0]); monitor p;",
            "p -> s == past(s); monitor p;",
            "p -> a {s <- past(a);}; monitor p;",
            "past -> a; monitor past;",
            "input past;",
            "define past = a; \u{e4}",
        ];
        for rest in about_past {
            assert!(
                said(rest).ends_with(&format!(" does not allow this token, or the end of the text, here{}", refusals::PAST)),
                "{rest}: {}",
                said(rest)
            );
        }
        for rest in
            ["p -> F == past(F) a;", "p -> a & ;", "input ; p -> F == past(F);", "p -> !a == 1 & F == past(F);", "p -> F == past(F) & G == zz;"]
        {
            assert!(!said(rest).contains("past"), "{rest}: {}", said(rest));
        }
    }

    /// Where a misplaced token has to do with the words of a limit it is said how these stand, and nowhere else.
    #[test]
    fn misplaced_words_of_limits_are_explained() {
        let said = |rest: &str| open(format!("input a; internal s = 0; x -> a; {rest}").as_bytes()).unwrap_err();
        let about_limits = [
            "input in;",
            "to -> a;",
            "limit -> a;",
            "define in = a;",
            "p -> a & to; monitor p;",
            "p -> a in a;",
            "limit to to 1 in 2;",
            "limit (x) to 1 in 2;",
            "limit x 1 in 2;",
            "limit x in 2 to 1;",
            "limit x to y in 2;",
            "limit x to 1, 2;",
            "limit x to 1 in;",
            "limit x to 1 in 2 monitor x;",
            "limit x",
            "monitor x; limit x to 1 in 2;",
        ];
        for rest in about_limits {
            assert!(said(rest).ends_with(&format!(", here{}", refusals::LIMIT)), "{rest}: {}", said(rest));
        }
        for rest in [
            "limit x to 1 in 2; p -> a a;",
            "input ; limit x to 1 in 2;",
            "p -> a == past(to); monitor p;",
            "limit x to 2 in 2;",
            "limit z to 1 in 2;",
        ] {
            assert!(!said(rest).contains(refusals::LIMIT), "{rest}: {}", said(rest));
        }
    }

    #[test]
    fn refused_limits_say_number_word_and_place() {
        let said = |rest: &str| open(format!("input a; x -> a; {rest} monitor x;").as_bytes()).unwrap_err();
        assert_eq!(
            said("limit x to 8 in 8;"),
            "the rule text is refused 21 (stretch) at byte 33, line 1, column 34: \
             in limit PRODUCTION to N in W the N is over 1,023, or the W is not above the N or over 1,024"
        );
        assert!(said("limit x to 1024 in 1025;").starts_with("the rule text is refused 21 (stretch) at byte 28, line 1, column 29: "));
        assert_eq!(
            said("p -> x, a; limit p to 1 in 2;"),
            "the rule text is refused 22 (not single) at byte 34, line 1, column 35: a production to be limited that is not a single letter"
        );
        assert!(said(&"limit x to 1 in 2; ".repeat(9)).starts_with("the rule text is refused 7 (crowded) at byte 169, line 1, column 170: "));
    }

    #[test]
    fn refused_texts_say_number_word_and_place() {
        let said = |text: &[u8]| open(text).unwrap_err();
        assert_eq!(
            said(b"input a;\n  p -> b;\nmonitor p;\n"),
            "the rule text is refused 4 (unknown) at byte 16, line 2, column 8: a name that is not declared above, or not of a kind allowed here"
        );
        assert_eq!(
            said(b"input a;\n"),
            "the rule text is refused 3 (misplaced) at byte 9, line 2, column 1, the end of the text: \
             the grammar does not allow this token, or the end of the text, here"
        );
        assert!(said(b"").starts_with("the rule text is refused 3 (misplaced) at byte 0, line 1, column 1, the end of the text: "));
        assert!(said(b"input a;\n\xff").starts_with("the rule text is refused 2 (knot) at byte 9, line 2, column 1: "));
        assert_eq!(said(&[b' '; 16_385]), "the rule text is refused 1 (overlong): the text has more than 16,384 bytes");
        assert_eq!(
            said(b"input a; input b; p -> a; q -> a*, a; monitor p, q;"),
            "the rule text is refused 12 (fork) at monitor 1 (q), letter 0: two letters side by side whose wire literals one word meets"
        );
    }
}

//! The letters of a rule text by their numbers: where each stands, and through which productions it came into its monitor.
//!
//! Like `rules` this is no reader of the grammar and takes texts that the library accepts. In these a production is a name, `->` and operands, up to a
//! `;`. Only operators and parentheses stand between operands, and each operand is a letter or the name of a production further up. A letter may hold
//! such signs too, but only behind `past` and in its braces.

use crate::rules::{self, Rules};

/// A part of the text with its line and column. White space in it is shown as one space.
#[derive(Clone, Debug, PartialEq)]
pub struct Part {
    pub text: String,
    pub line: usize,
    pub column: usize,
}

/// A letter, and the names of productions that were opened on the way from its monitor's own expression to it, each where it is used.
#[derive(Debug, PartialEq)]
pub struct Letter {
    pub part: Part,
    pub through: Vec<Part>,
}

struct Production<'a> {
    name: &'a str,
    operands: Vec<Part>,
}

/// A token behind its place.
type Token<'a> = (usize, &'a str);

/// The signs that stand between operands, `||` as two.
const BETWEEN: [&str; 6] = ["(", ")", ",", "|", "*", "@"];

/// The letters of each monitor in the order of their numbers; nothing if a monitor is no production of the text.
pub fn of(rules: &Rules) -> Option<Vec<Vec<Letter>>> {
    let productions = productions(&rules.text);
    let opened = |name: &String| {
        let at = productions.iter().position(|production| production.name == name)?;
        let mut letters = Vec::new();
        open(&productions[..=at], &mut Vec::new(), &mut letters);
        Some(letters)
    };
    rules.monitors.iter().map(opened).collect()
}

/// Adds the letters of the last of some productions. A name stands for a copy of a production further up, with letters of its own.
fn open(productions: &[Production], through: &mut Vec<Part>, letters: &mut Vec<Letter>) {
    let Some((last, above)) = productions.split_last() else {
        return;
    };
    for operand in &last.operands {
        match above.iter().position(|production| production.name == operand.text) {
            Some(at) => {
                through.push(operand.clone());
                open(&above[..=at], through, letters);
                through.pop();
            }
            None => letters.push(Letter { part: operand.clone(), through: through.clone() }),
        }
    }
}

/// The productions from the top on: the statements whose second token is `->`.
fn productions(text: &str) -> Vec<Production<'_>> {
    let tokens = rules::placed_tokens(text);
    let mut productions = Vec::new();
    let mut rest = &tokens[..];
    while !rest.is_empty() {
        let (statement, behind) = rest.split_at(statement_length(rest));
        if let [(_, name), (_, "-"), (_, ">"), expression @ ..] = statement {
            productions.push(Production { name, operands: operands(text, expression) });
        }
        rest = behind.get(1..).unwrap_or_default();
    }
    productions
}

/// How many tokens there are before the `;` of the first statement. Writes have theirs in braces.
fn statement_length(tokens: &[Token]) -> usize {
    let mut in_braces = false;
    let ends = |&(_, token): &Token| {
        in_braces = token == "{" || in_braces && token != "}";
        token == ";" && !in_braces
    };
    tokens.iter().position(ends).unwrap_or(tokens.len())
}

/// The operands of an expression from left to right.
fn operands(text: &str, expression: &[Token]) -> Vec<Part> {
    let mut operands = Vec::new();
    let mut rest = expression;
    while let Some((first, behind)) = rest.split_first() {
        if BETWEEN.contains(&first.1) {
            rest = behind;
        } else {
            let (operand, behind) = rest.split_at(operand_length(rest));
            operands.extend(part(text, operand));
            rest = behind;
        }
    }
    operands
}

/// How many tokens the operand has that begins here: those before a sign that is not its own. Its own parentheses and braces open behind its beginning.
fn operand_length(tokens: &[Token]) -> usize {
    let mut open: usize = 0;
    let ends = |&(_, token): &Token| match token {
        "(" | "{" => {
            open += 1;
            false
        }
        ")" | "}" if open > 0 => {
            open -= 1;
            false
        }
        _ => open == 0 && BETWEEN.contains(&token),
    };
    tokens.iter().position(ends).unwrap_or(tokens.len())
}

/// The part of the text from the first to the last of some tokens.
fn part(text: &str, tokens: &[Token]) -> Option<Part> {
    let (&(from, _), &(last, token)) = (tokens.first()?, tokens.last()?);
    let words: Vec<&str> = text.get(from..last + token.len())?.split_whitespace().collect();
    let (line, column) = rules::line_and_column(text.as_bytes(), from);
    Some(Part { text: words.join(" "), line, column })
}

#[cfg(test)]
mod tests {
    use super::*;

    fn letters(text: &str) -> Vec<Vec<Letter>> {
        of(&rules::open(text.as_bytes()).unwrap()).unwrap()
    }

    /// The letters of all monitors: text, line and column, and the names behind them.
    fn said(text: &str) -> Vec<String> {
        let one = |letter: Letter| {
            let through: String = letter.through.iter().map(|part| format!(" {} {}:{}", part.text, part.line, part.column)).collect();
            format!("{} {}:{}{through}", letter.part.text, letter.part.line, letter.part.column)
        };
        letters(text).into_iter().flatten().map(one).collect()
    }

    #[test]
    fn letters_are_numbered_from_left_to_right() {
        let text = "input a; input b;\np -> (a & !b*, a & b) @ ((b), !b) || !a;\nmonitor p;";
        assert_eq!(said(text), ["a & !b 2:7", "a & b 2:16", "b 2:27", "!b 2:31", "!a 2:38"]);
    }

    #[test]
    fn signs_within_a_letter_do_not_end_it() {
        let text = "input a; input D[7:0]; internal s[7:0] = 0; internal t = 1;\n\
                    p -> a & D == past(D) & t == 1 {s <- D; t <- 0;}*, !a & !D[3] & D == past ( D ) {t<-1;}\n\
                    || (!a & D[3] & D == s, a == past(a)); monitor p;";
        let first = "a & D == past(D) & t == 1 {s <- D; t <- 0;} 2:6";
        let second = "!a & !D[3] & D == past ( D ) {t<-1;} 2:52";
        assert_eq!(said(text), [first, second, "!a & D[3] & D == s 3:5", "a == past(a) 3:25"]);
    }

    #[test]
    fn names_stand_for_copies() {
        let text = "input a; input b;\none -> a;\ntwo -> one, b || !a;\np -> two @ one, (two);\nmonitor p, one, p;";
        let p = [
            "a 2:8 two 4:6 one 3:8",
            "b 3:13 two 4:6",
            "!a 3:18 two 4:6",
            "a 2:8 one 4:12",
            "a 2:8 two 4:18 one 3:8",
            "b 3:13 two 4:18",
            "!a 3:18 two 4:18",
        ];
        assert_eq!(said(text), [&p[..], &["a 2:8"], &p[..]].concat());
        assert_eq!(letters(text).iter().map(Vec::len).collect::<Vec<usize>>(), [7, 1, 7]);
    }

    #[test]
    fn defines_are_shown_as_they_stand() {
        let text = "input a; input b; define both = a & b; define all = both & a == 1; p -> all, both & a || !a; monitor p;";
        assert_eq!(said(text), ["all 1:73", "both & a 1:78", "!a 1:90"]);
    }

    #[test]
    fn white_space_may_stand_anywhere() {
        let text = "input\ta;internal s=0;\r\nq->a{s<-1;}\n;\tp\n->\n\t!a\r\n  &  s\n==0\n{ s\n<-\n0 ; },q;monitor p;";
        assert_eq!(said(text), ["!a & s ==0 { s <- 0 ; } 5:2", "a{s<-1;} 2:4 q 10:7"]);
    }

    #[test]
    fn statements_of_other_kinds_are_no_productions() {
        let text = "input a; define d = a; internal monitors = 0; input_1 -> d; p -> input_1 || !a {monitors <- 1;}; monitor p;";
        assert_eq!(said(text), ["d 1:58 input_1 1:66", "!a {monitors <- 1;} 1:77"]);
    }

    /// A production that no monitor names may stand for more letters than there is room for.
    #[test]
    fn what_no_monitor_names_is_not_opened() {
        let mut text = String::from("input a; p0 -> a;");
        (1..100).for_each(|i| text.push_str(&format!("p{i} -> p{}, p{};", i - 1, i - 1)));
        assert_eq!(letters(&format!("{text} monitor p8;"))[0].len(), 256);
    }

    #[test]
    fn limits_have_no_letters() {
        let text = "input a;\nx -> a;\nlimit x to 1in 2;\np -> x || !a;\nlimit x to 0 in 5; monitor p, x;";
        assert_eq!(said(text), ["a 2:6 x 4:6", "!a 4:11", "a 2:6"]);
    }

    /// Texts that no library accepts do no harm.
    #[test]
    fn other_texts_do_no_harm() {
        let text = "input a; q -> a {s <- 1;}; p -> (q, !a == past(a))* @ q || \u{e4}; monitor p;";
        let of_text = |text: String| of(&Rules { monitors: vec![String::from("p")], text, ..Rules::default() });
        for (at, _) in text.char_indices() {
            let (before, from) = text.split_at(at);
            of_text(String::from(before));
            of_text(String::from(from));
            for sign in ["{", "}", "(", ")", ";", "->", "\u{e4}", "p", " "] {
                of_text(format!("{before}{sign}{from}"));
            }
        }
        assert_eq!(of_text(String::from("p -> p;")).unwrap()[0].len(), 1);
        assert_eq!(of_text(String::from("q -> p;")), None);
        assert_eq!(of_text(String::new()), None);
    }
}

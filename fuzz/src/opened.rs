//! Texts that `second` accepts, opened: the parts of each monitor, their letters, the first values of the stores, and the limits with the letters that count for
//! each. Every copy of a production has parts of its own. Nothing is checked here, as the text is accepted; a refused one may give anything, or panic.

use crate::past;
use std::collections::HashMap;

/// A part of a monitor. Operands are numbers of parts.
pub enum Part {
    Letter(usize),
    Sequence(usize, usize),
    Choice(usize, usize),
    Star(usize),
    Pipe(usize, usize),
}

/// What a store is compared with, or what is written there.
pub enum Value {
    Number(u64),
    /// The wires of an input: where they begin, and a mask of as many bits.
    Wires(u32, u64),
}

impl Value {
    pub fn of(&self, word: u64) -> u64 {
        match *self {
            Value::Number(number) => number,
            Value::Wires(low, mask) => word >> low & mask,
        }
    }
}

/// The wires a letter looks at and the values they must have; those that must be as before; its store tests and its writes.
#[derive(Default)]
pub struct Letter {
    pub look: u64,
    pub want: u64,
    pub held: u64,
    pub tests: Vec<(usize, Value)>,
    pub writes: Vec<(usize, Value)>,
}

/// A limit: of so many ticks in a row, at most so many may meet one of its letters.
#[derive(Debug, PartialEq, Eq)]
pub struct Limit {
    pub most: usize,
    pub window: usize,
    /// Whether each letter counts: those do that came through the limited production.
    pub counts: Vec<bool>,
}

impl Limit {
    /// Whether a tick at which these letters are met counts.
    pub fn is_met(&self, letters: &[usize]) -> bool {
        letters.iter().any(|&letter| self.counts[letter])
    }
}

/// An opened text. Letters are in reading order, those of a later monitor behind those of the earlier ones.
#[derive(Default)]
pub struct Opened {
    pub parts: Vec<Part>,
    /// For each part, in how many ways it can take no tick.
    pub hollow: Vec<u64>,
    pub letters: Vec<Letter>,
    /// The part that each monitor is.
    pub monitors: Vec<usize>,
    pub stores: Vec<u64>,
    pub wires: u32,
    pub limits: Vec<Limit>,
}

impl Opened {
    pub fn has_threads(&self) -> bool {
        self.parts.iter().any(|part| matches!(part, Part::Pipe(..)))
    }

    /// How many letters each monitor has. A part stands behind its operands, and those of a monitor behind those of the earlier ones.
    pub fn letters_of_monitors(&self) -> Vec<usize> {
        let mut from = 0;
        let letters = |&monitor: &usize| {
            let parts = &self.parts[std::mem::replace(&mut from, monitor + 1)..=monitor];
            parts.iter().filter(|part| matches!(part, Part::Letter(_))).count()
        };
        self.monitors.iter().map(letters).collect()
    }

    /// The letters that count for some limit, by the wires they look at and the values wanted.
    pub fn counting(&self) -> Vec<(u64, u64)> {
        let counts = |letter: usize| self.limits.iter().any(|limit| limit.counts[letter]);
        (0..self.letters.len()).filter(|&letter| counts(letter)).map(|letter| (self.letters[letter].look, self.letters[letter].want)).collect()
    }

    /// The letters of left operands of `@`, by the wires they look at and the values wanted.
    pub fn starters(&self) -> Vec<(u64, u64)> {
        let mut starters = Vec::new();
        for part in &self.parts {
            if let Part::Pipe(left, _) = part {
                self.put_letters(*left, &mut starters);
            }
        }
        starters
    }

    fn put_letters(&self, part: usize, letters: &mut Vec<(u64, u64)>) {
        match self.parts[part] {
            Part::Letter(letter) => letters.push((self.letters[letter].look, self.letters[letter].want)),
            Part::Star(body) | Part::Pipe(body, _) => self.put_letters(body, letters),
            Part::Sequence(e, f) | Part::Choice(e, f) => {
                self.put_letters(e, letters);
                self.put_letters(f, letters);
            }
        }
    }
}

/// Opens an accepted text.
pub fn open(text: &str) -> Opened {
    let tokens = past::parts(text).into_iter().filter(|part| !part.trim().is_empty()).collect();
    let mut reader = Reader { tokens, ..Reader::default() };
    while reader.at < reader.tokens.len() {
        reader.statement();
    }
    reader.opened.wires = reader.wires;
    reader.opened.limits = reader.limits.iter().map(|limit| reader.limit_of(limit)).collect();
    reader.opened
}

/// Opens a text if `second` accepts it.
pub fn accepted(text: &[u8]) -> Option<Opened> {
    second::open(text).ok()?;
    Some(open(std::str::from_utf8(text).expect("an accepted text is ASCII")))
}

/// A text as it is read. Tokens are names, numbers and single characters: a sign of two is two tokens.
#[derive(Default)]
struct Reader<'t> {
    tokens: Vec<&'t str>,
    at: usize,
    /// Where the wires of each input begin, and a mask of as many bits.
    inputs: HashMap<&'t str, (u32, u64)>,
    wires: u32,
    stores: HashMap<&'t str, usize>,
    /// The tokens at which the bodies of defines and productions begin.
    bodies: HashMap<&'t str, usize>,
    /// The names of the productions whose copies are being opened, the monitor's first.
    through: Vec<&'t str>,
    /// The names that each letter came through.
    came_through: Vec<Vec<&'t str>>,
    /// The limits: the production, the most ticks and the window of each.
    limits: Vec<(&'t str, usize, usize)>,
    opened: Opened,
}

impl<'t> Reader<'t> {
    fn next(&mut self) -> &'t str {
        self.at += 1;
        self.tokens[self.at - 1]
    }

    fn number(&mut self) -> u64 {
        self.next().parse().expect("the text is accepted")
    }

    /// Whether the next token is this one, which is then passed.
    fn takes(&mut self, token: &str) -> bool {
        let is_next = self.tokens[self.at] == token;
        self.at += usize::from(is_next);
        is_next
    }

    /// What the tokens from a place on read as, whatever stands here.
    fn elsewhere<T>(&mut self, at: usize, read: impl FnOnce(&mut Self) -> T) -> T {
        let back = std::mem::replace(&mut self.at, at);
        let read = read(self);
        self.at = back;
        read
    }

    // ---- declarations

    fn statement(&mut self) {
        match self.next() {
            "input" => self.input(),
            "internal" => self.store(),
            "define" => {
                let name = self.next();
                self.body(name, 1);
            }
            "limit" => self.limit(),
            "monitor" => self.monitors(),
            name => self.body(name, 2),
        }
    }

    /// `P to n in w;`
    fn limit(&mut self) {
        let name = self.next();
        self.at += 1;
        let most = self.number() as usize;
        self.at += 1;
        let window = self.number() as usize;
        self.at += 1;
        self.limits.push((name, most, window));
    }

    /// A limit with its letters, once all monitors are opened.
    fn limit_of(&self, &(name, most, window): &(&str, usize, usize)) -> Limit {
        let counts = self.came_through.iter().map(|names| names.contains(&name)).collect();
        Limit { most, window, counts }
    }

    /// `[h:0]`, or nothing for one bit.
    fn width(&mut self) -> u32 {
        if !self.takes("[") {
            return 1;
        }
        let highest = self.number() as u32;
        self.at += 3;
        highest + 1
    }

    fn input(&mut self) {
        let name = self.next();
        let width = self.width();
        self.inputs.insert(name, (self.wires, u64::MAX >> (64 - width)));
        self.wires += width;
        self.at += 1;
    }

    fn store(&mut self) {
        let name = self.next();
        self.width();
        self.at += 1;
        let first = self.number();
        self.stores.insert(name, self.opened.stores.len());
        self.opened.stores.push(first);
        self.at += 1;
    }

    /// Notes the body behind a name and so many tokens of a sign, and passes it.
    fn body(&mut self, name: &'t str, sign: usize) {
        self.bodies.insert(name, self.at + sign);
        // A write ends in a `;` too, but stands in braces.
        let mut braces = 0;
        loop {
            match self.next() {
                "{" => braces += 1,
                "}" => braces -= 1,
                ";" if braces == 0 => return,
                _ => (),
            }
        }
    }

    fn monitors(&mut self) {
        loop {
            let name = self.next();
            let monitor = self.copy(name, self.bodies[name]);
            self.opened.monitors.push(monitor);
            if !self.takes(",") {
                self.at += 1;
                return;
            }
        }
    }

    /// A copy of the production of this name, whose body begins there.
    fn copy(&mut self, name: &'t str, body: usize) -> usize {
        self.through.push(name);
        let part = self.elsewhere(body, Self::choice);
        self.through.pop();
        part
    }

    // ---- expressions, the loosest operator first

    fn put(&mut self, part: Part) -> usize {
        let hollow = &self.opened.hollow;
        let ways = match part {
            Part::Letter(_) | Part::Pipe(..) => 0,
            Part::Star(_) => 1,
            Part::Sequence(e, f) => hollow[e].saturating_mul(hollow[f]),
            Part::Choice(e, f) => hollow[e].saturating_add(hollow[f]),
        };
        self.opened.parts.push(part);
        self.opened.hollow.push(ways);
        self.opened.parts.len() - 1
    }

    fn choice(&mut self) -> usize {
        let mut part = self.sequence();
        while self.takes("|") {
            self.at += 1;
            let right = self.sequence();
            part = self.put(Part::Choice(part, right));
        }
        part
    }

    fn sequence(&mut self) -> usize {
        let mut part = self.pipe();
        while self.takes(",") {
            let right = self.pipe();
            part = self.put(Part::Sequence(part, right));
        }
        part
    }

    fn pipe(&mut self) -> usize {
        let left = self.star();
        if !self.takes("@") {
            return left;
        }
        let right = self.star();
        self.put(Part::Pipe(left, right))
    }

    fn star(&mut self) -> usize {
        let body = self.single();
        if !self.takes("*") {
            return body;
        }
        self.put(Part::Star(body))
    }

    /// Parentheses, a copy of a production, or a letter. The name of a define begins a letter.
    fn single(&mut self) -> usize {
        if self.takes("(") {
            let part = self.choice();
            self.at += 1;
            return part;
        }
        let name = self.tokens[self.at];
        match self.bodies.get(name) {
            Some(&body) if self.tokens[body - 1] == ">" => {
                self.at += 1;
                self.copy(name, body)
            }
            _ => self.letter(),
        }
    }

    // ---- letters

    fn letter(&mut self) -> usize {
        let mut letter = Letter::default();
        self.literals(&mut letter);
        if self.takes("{") {
            self.writes(&mut letter);
        }
        self.opened.letters.push(letter);
        self.came_through.push(self.through.clone());
        self.put(Part::Letter(self.opened.letters.len() - 1))
    }

    fn literals(&mut self, letter: &mut Letter) {
        self.literal(letter);
        while self.takes("&") {
            self.literal(letter);
        }
    }

    fn literal(&mut self, letter: &mut Letter) {
        let stands = !self.takes("!");
        let name = self.next();
        if let Some(&body) = self.bodies.get(name) {
            return self.elsewhere(body, |reader| reader.literals(letter));
        }
        if let Some(&store) = self.stores.get(name) {
            self.at += 2;
            return letter.tests.push((store, Value::Number(self.number())));
        }
        let (low, mask) = self.inputs[name];
        if self.takes("=") {
            self.at += 1;
            return self.equals(low, mask, letter);
        }
        let mut bit = low;
        if self.takes("[") {
            bit += self.number() as u32;
            self.at += 1;
        }
        letter.look |= 1 << bit;
        letter.want |= u64::from(stands) << bit;
    }

    /// What an input is compared with: its value before, a store or a number.
    fn equals(&mut self, low: u32, mask: u64, letter: &mut Letter) {
        if self.takes("past") {
            self.at += 3;
            letter.held |= mask << low;
        } else if let Some(&store) = self.stores.get(self.tokens[self.at]) {
            self.at += 1;
            letter.tests.push((store, Value::Wires(low, mask)));
        } else {
            letter.look |= mask << low;
            letter.want |= self.number() << low;
        }
    }

    fn writes(&mut self, letter: &mut Letter) {
        while !self.takes("}") {
            let name = self.next();
            let store = self.stores[name];
            self.at += 2;
            let written = self.next();
            let value = match self.inputs.get(written) {
                Some(&(low, mask)) => Value::Wires(low, mask),
                None => Value::Number(written.parse().expect("the text is accepted")),
            };
            letter.writes.push((store, value));
            self.at += 1;
        }
    }
}

#[cfg(test)]
mod tests {
    use super::*;

    fn masks(letter: &Letter) -> (u64, u64, u64) {
        (letter.look, letter.want, letter.held)
    }

    fn values(pairs: &[(usize, Value)], word: u64) -> Vec<(usize, u64)> {
        pairs.iter().map(|(store, value)| (*store, value.of(word))).collect()
    }

    #[test]
    fn letters_have_all_forms_of_literals_and_writes() {
        let text = "input a; input F [2:0]; input b; internal s[2:0]=05; internal t = 1; define d = !a & F[1]; define e = d & s == 3 ;\n\
                    p -> a & F == 6 & b[0] {s <- F; t<-0;} || e & F == s & !F[2] || d & F==past(F) & b == past ( b ); monitor p;";
        let opened = open(text);
        let letters = &opened.letters;
        assert_eq!(opened.stores, [5, 1]);
        assert_eq!(
            [masks(&letters[0]), masks(&letters[1]), masks(&letters[2])],
            [(0b11111, 0b11101, 0), (0b01101, 0b00100, 0), (0b00101, 0b00100, 0b11110)]
        );
        let word = 0b01010;
        assert_eq!((values(&letters[0].tests, word), values(&letters[0].writes, word)), (vec![], vec![(0, 5), (1, 0)]));
        assert_eq!((values(&letters[1].tests, word), values(&letters[1].writes, word)), (vec![(0, 3), (0, 5)], vec![]));
        assert!(letters[2].tests.is_empty() && letters[2].writes.is_empty());
    }

    /// An opened part as a text with all parentheses, a letter as its number.
    fn shown(opened: &Opened, part: usize) -> String {
        let shown = |part: &usize| shown(opened, *part);
        match &opened.parts[part] {
            Part::Letter(letter) => letter.to_string(),
            Part::Star(body) => format!("{}*", shown(body)),
            Part::Sequence(e, f) => format!("({}, {})", shown(e), shown(f)),
            Part::Choice(e, f) => format!("({} || {})", shown(e), shown(f)),
            Part::Pipe(e, f) => format!("({} @ {})", shown(e), shown(f)),
        }
    }

    #[test]
    fn operators_group_as_they_should_and_copies_are_opened() {
        let opened = open("input a; internal s = 0; q -> a {s <- 1;} || a; p -> a, a* @ (a, q), q* || a, a || a; monitor p, q, q;");
        let monitors: Vec<String> = opened.monitors.iter().map(|&part| shown(&opened, part)).collect();
        assert_eq!(monitors, ["((((0, (1* @ (2, (3 || 4)))), (5 || 6)*) || (7, 8)) || 9)", "(10 || 11)", "(12 || 13)"]);
    }

    #[test]
    fn hollow_parts_are_known() {
        let hollow = |body: &str| {
            let opened = open(&format!("input a; p -> {body}; monitor p;"));
            opened.hollow[opened.monitors[0]]
        };
        assert_eq!(["a*", "a || a*", "a*, a*", "(a*, a)*"].map(hollow), [1; 4]);
        assert_eq!(["a* || a*", "(a* || a || a*), a*", "(a* || a*), (a* || a* || a*)"].map(hollow), [2, 2, 6]);
        assert_eq!(["a", "a*, a", "a @ a", "a || a"].map(hollow), [0; 4]);
    }

    #[test]
    fn letters_are_counted_by_monitor() {
        let opened = open("input a; input b[2:0]; q -> a || !a @ (a, a); p -> a*, q, !a; monitor p, q, p;");
        assert_eq!((opened.letters_of_monitors(), opened.letters.len(), opened.wires), (vec![6, 4, 6], 16, 4));
    }

    /// The letters that count for each limit, behind its two numbers.
    fn limits(text: &str) -> Vec<(usize, usize, Vec<usize>)> {
        let counted = |limit: &Limit| (0..limit.counts.len()).filter(|&letter| limit.counts[letter]).collect();
        open(text).limits.iter().map(|limit| (limit.most, limit.window, counted(limit))).collect()
    }

    /// A letter counts for each production that its copy came through, wherever the limit stands, and the same letter written out does not.
    #[test]
    fn letters_count_by_the_names_they_came_through() {
        let text =
            "input a; q -> a; p -> (q); limit q to 3 in 1024; m -> a, q, p || !a, p; r -> !a; limit p to 00 in 01; limit r to 1in 2; monitor m, p, q, m;";
        assert_eq!(limits(text), [(3, 1024, vec![1, 2, 4, 5, 6, 8, 9, 11]), (0, 1, vec![2, 4, 5, 9, 11]), (1, 2, vec![])]);
    }

    #[test]
    fn letters_that_count_are_known_by_their_wires() {
        let opened = open("input a; input b; x -> a & !b; y -> b; p -> x || y, x || !a & !b; limit x to 1 in 2; limit x to 2 in 3; monitor p;");
        assert_eq!(opened.counting(), [(0b11, 0b01), (0b11, 0b01)]);
        assert!(opened.limits[0].is_met(&[1, 2]) && !opened.limits[1].is_met(&[1, 3]) && !opened.limits[0].is_met(&[]));
    }

    #[test]
    fn only_accepted_texts_are_opened() {
        assert!(accepted(b"input a; p -> a; monitor p;").is_some_and(|opened| opened.letters.len() == 1));
        assert!(accepted(b"input a; p -> a || a; monitor p;").is_none());
        assert!(accepted(b"\xff").is_none());
    }

    #[test]
    fn starters_are_the_letters_of_left_operands() {
        let starters = |body: &str| open(&format!("input a; input b; input c; p -> {body}; monitor p;")).starters();
        assert_eq!(starters("(a, !b*) @ c || b"), [(1, 1), (2, 0)]);
        assert_eq!(starters("(a @ (b, c)) @ (b @ c)"), [(1, 1), (2, 2), (1, 1)]);
        assert_eq!(starters("a, b"), []);
    }
}

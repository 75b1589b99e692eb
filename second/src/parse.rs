//! The parser: reads the grammar of the rule text, token by token.
//!
//! It refuses with numbers 1 to 7, 21 and 22. Each token is judged as soon as it
//! is looked at and the checks on one token run from the lowest number to the
//! highest, so the first refusal met is the one the specification asks for. (21
//! and 22 come between 6 and 7, but no token can be at fault by them and by 7.)

use std::collections::HashMap;

use crate::expr::{Expr, ExprId, Exprs};
use crate::letter::{largest, Condition, Field, Letter, Source, StoreTest, Write};
use crate::limit;
use crate::refusal::{Reason, Refusal};
use crate::token::{Lexer, Reserved, Token, RULE_WORDS};

type Result<T> = std::result::Result<T, Refusal>;

/// A rule text that keeps to the grammar.
pub struct Parsed {
    /// How many bits of a word are wires.
    pub wires: u32,
    /// The stores' first values.
    pub stores: Vec<u64>,
    pub exprs: Exprs,
    /// In the order of the text, which numbers them from 0.
    pub limits: Vec<Limit>,
    /// The production of each monitor.
    pub monitors: Vec<ExprId>,
}

/// `limit P to most in window`: of so many ticks in a row, no more may meet a
/// letter opened through the production.
#[derive(Clone, Copy, Debug, PartialEq, Eq)]
pub struct Limit {
    pub production: ExprId,
    pub most: u32,
    pub window: u32,
}

/// Reads a whole rule text.
pub fn parse(text: &[u8]) -> Result<Parsed> {
    if text.len() > limit::TEXT_BYTES {
        return Err(Refusal::at_byte(Reason::Overlong, 0));
    }
    let mut parser = Parser::new(text, RULE_WORDS);
    parser.declarations()?;
    parser.monitor_statement()?;
    parser.expect(Token::End)?;
    Ok(Parsed {
        wires: parser.wires,
        stores: parser
            .stores
            .iter()
            .map(|store| store.first_value)
            .collect(),
        exprs: parser.exprs,
        limits: parser.limits,
        monitors: parser.monitors,
    })
}

/// What a declared name stands for.
#[derive(Clone, Copy)]
enum Meaning {
    Input(Field),
    Store(usize),
    /// By its number in the list of defines.
    Define(usize),
    Production(ExprId),
}

struct Store {
    width: u32,
    first_value: u64,
}

/// Where literals stand: only a letter limits its store tests.
#[derive(Clone, Copy, PartialEq, Eq)]
enum Within {
    Define,
    Letter,
}

struct Parser<'t> {
    lexer: Lexer<'t>,
    /// The token to be judged next, and its first byte.
    token: Token<'t>,
    at: usize,

    names: HashMap<&'t [u8], Meaning>,
    wires: u32,
    stores: Vec<Store>,
    defines: Vec<Condition>,
    exprs: Exprs,
    limits: Vec<Limit>,
    monitors: Vec<ExprId>,
}

// Moving over tokens, and refusing them.
impl<'t> Parser<'t> {
    fn new(text: &'t [u8], reserved: Reserved) -> Self {
        let mut lexer = Lexer::new(text, reserved);
        let (token, at) = lexer.advance();
        Parser {
            lexer,
            token,
            at,
            names: HashMap::new(),
            wires: 0,
            stores: Vec::new(),
            defines: Vec::new(),
            exprs: Exprs::default(),
            limits: Vec::new(),
            monitors: Vec::new(),
        }
    }

    fn advance(&mut self) {
        (self.token, self.at) = self.lexer.advance();
    }

    fn refuse<T>(&self, reason: Reason) -> Result<T> {
        Err(Refusal::at_byte(reason, self.at))
    }

    /// Refuses a token the grammar does not allow here; what is no token at
    /// all has its own, lower number.
    fn misplaced<T>(&self) -> Result<T> {
        match self.token {
            Token::Knot => self.refuse(Reason::Knot),
            _ => self.refuse(Reason::Misplaced),
        }
    }

    fn expect(&mut self, token: Token<'_>) -> Result<()> {
        if self.token != token {
            return self.misplaced();
        }
        self.advance();
        Ok(())
    }

    /// Passes the token if it stands here.
    fn accept(&mut self, token: Token<'_>) -> bool {
        let here = self.token == token;
        if here {
            self.advance();
        }
        here
    }

    /// The number that must stand here; it is not passed yet.
    fn number_here(&self) -> Result<u64> {
        match self.token {
            Token::Number(value) => Ok(value),
            _ => self.misplaced(),
        }
    }

    /// The number that must stand here and fit `width` bits; it is passed.
    fn value_of_width(&mut self, width: u32) -> Result<u64> {
        let value = self.number_here()?;
        if value > largest(width) {
            return self.refuse(Reason::Oversize);
        }
        self.advance();
        Ok(value)
    }

    /// What the name that must stand here means; it is not passed yet.
    fn known_name_here(&self) -> Result<Meaning> {
        match self.token {
            Token::Name(name) => match self.names.get(name) {
                Some(meaning) => Ok(*meaning),
                None => self.refuse(Reason::Unknown),
            },
            _ => self.misplaced(),
        }
    }

    /// The production whose name must stand here; it is not passed yet.
    fn production_here(&self) -> Result<ExprId> {
        match self.known_name_here()? {
            Meaning::Production(id) => Ok(id),
            _ => self.refuse(Reason::Unknown),
        }
    }

    /// The undeclared name that must stand here; it is not passed yet.
    fn fresh_name_here(&self) -> Result<&'t [u8]> {
        match self.token {
            Token::Name(name) if self.names.contains_key(name) => self.refuse(Reason::Twice),
            Token::Name(name) => Ok(name),
            _ => self.misplaced(),
        }
    }

    /// Judges whether one more name may be declared here.
    fn room_for_a_name(&self) -> Result<()> {
        if self.names.len() >= limit::NAMES {
            return self.refuse(Reason::Crowded);
        }
        Ok(())
    }
}

// Declarations and the monitor statement.
impl<'t> Parser<'t> {
    fn declarations(&mut self) -> Result<()> {
        loop {
            match self.token {
                Token::Input => self.input()?,
                Token::Internal => self.internal()?,
                Token::Define => self.define()?,
                Token::Limit => self.limit()?,
                Token::Name(_) => self.production()?,
                _ => return Ok(()),
            }
            self.expect(Token::Semicolon)?;
        }
    }

    /// `input N` or `input N[h:0]`
    fn input(&mut self) -> Result<()> {
        self.advance();
        let name = self.fresh_name_here()?;
        if self.wires >= limit::WIRES {
            return self.refuse(Reason::Oversize);
        }
        self.room_for_a_name()?;
        self.advance();
        let width = self.width(limit::WIRES - self.wires)?;
        let field = Field {
            low: self.wires,
            width,
        };
        self.wires += width;
        self.names.insert(name, Meaning::Input(field));
        Ok(())
    }

    /// `internal N = v` or `internal N[h:0] = v`
    fn internal(&mut self) -> Result<()> {
        self.advance();
        let name = self.fresh_name_here()?;
        self.room_for_a_name()?;
        if self.stores.len() >= limit::STORES {
            return self.refuse(Reason::Crowded);
        }
        self.advance();
        let width = self.width(64)?;
        self.expect(Token::Assign)?;
        let first_value = self.value_of_width(width)?;
        self.names.insert(name, Meaning::Store(self.stores.len()));
        self.stores.push(Store { width, first_value });
        Ok(())
    }

    /// An optional `[h:0]`; gives the width, at most `most`.
    fn width(&mut self, most: u32) -> Result<u32> {
        if !self.accept(Token::OpenBracket) {
            return Ok(1);
        }
        let high = self.number_here()?;
        if high >= u64::from(most) {
            return self.refuse(Reason::Oversize);
        }
        self.advance();
        self.expect(Token::Colon)?;
        self.expect(Token::Number(0))?;
        self.expect(Token::CloseBracket)?;
        Ok(high as u32 + 1)
    }

    /// `define N =` literals joined by `&`
    fn define(&mut self) -> Result<()> {
        self.advance();
        let name = self.fresh_name_here()?;
        self.room_for_a_name()?;
        self.advance();
        self.expect(Token::Assign)?;
        let condition = self.literals(Within::Define)?;
        self.names.insert(name, Meaning::Define(self.defines.len()));
        self.defines.push(condition);
        Ok(())
    }

    /// `N ->` an expression
    fn production(&mut self) -> Result<()> {
        let name = self.fresh_name_here()?;
        self.room_for_a_name()?;
        self.advance();
        self.expect(Token::Produces)?;
        let body = self.expression(limit::PARENTHESES)?;
        let production = self.exprs.add(Expr::Production(body));
        self.names.insert(name, Meaning::Production(production));
        Ok(())
    }

    /// `limit P to n in w`; it declares no name
    fn limit(&mut self) -> Result<()> {
        if self.limits.len() >= limit::LIMITS {
            return self.refuse(Reason::Crowded);
        }
        self.advance();
        let production = self.one_letter()?;
        self.expect(Token::To)?;
        let most = self.ticks_from(0, limit::WINDOW - 1)?;
        self.expect(Token::In)?;
        let window = self.ticks_from(most + 1, limit::WINDOW)?;
        self.limits.push(Limit {
            production,
            most,
            window,
        });
        Ok(())
    }

    /// The production of one letter whose name must stand here; it is passed.
    fn one_letter(&mut self) -> Result<ExprId> {
        let production = self.production_here()?;
        if !self.exprs.measure(production).is_one_letter() {
            return self.refuse(Reason::NotOneLetter);
        }
        self.advance();
        Ok(production)
    }

    /// The number of a limit that must stand here and be within these bounds;
    /// it is passed.
    fn ticks_from(&mut self, least: u32, most: u32) -> Result<u32> {
        match u32::try_from(self.number_here()?) {
            Ok(ticks) if (least..=most).contains(&ticks) => {
                self.advance();
                Ok(ticks)
            }
            _ => self.refuse(Reason::LimitRange),
        }
    }

    /// `monitor` production names joined by `,`
    fn monitor_statement(&mut self) -> Result<()> {
        self.expect(Token::Monitor)?;
        loop {
            let production = self.production_here()?;
            if self.monitors.len() >= limit::MONITORS {
                return self.refuse(Reason::Crowded);
            }
            self.monitors.push(production);
            self.advance();
            if !self.accept(Token::Comma) {
                return self.expect(Token::Semicolon);
            }
        }
    }
}

// Expressions, loosest operator first. `levels` is how many parentheses may
// still be opened.
impl Parser<'_> {
    /// Sequences joined by `||`
    fn expression(&mut self, levels: usize) -> Result<ExprId> {
        let mut left = self.sequence(levels)?;
        while self.accept(Token::Or) {
            let right = self.sequence(levels)?;
            left = self.exprs.add(Expr::Choice(left, right));
        }
        Ok(left)
    }

    /// Pipelines joined by `,`
    fn sequence(&mut self, levels: usize) -> Result<ExprId> {
        let mut left = self.pipeline(levels)?;
        while self.accept(Token::Comma) {
            let right = self.pipeline(levels)?;
            left = self.exprs.add(Expr::Sequence(left, right));
        }
        Ok(left)
    }

    /// A starred part, or two of them joined by `@`
    fn pipeline(&mut self, levels: usize) -> Result<ExprId> {
        let left = self.starred(levels)?;
        if !self.accept(Token::At) {
            return Ok(left);
        }
        let right = self.starred(levels)?;
        Ok(self.exprs.add(Expr::Pipeline(left, right)))
    }

    /// A part, or a part and `*`
    fn starred(&mut self, levels: usize) -> Result<ExprId> {
        let part = self.part(levels)?;
        if !self.accept(Token::Star) {
            return Ok(part);
        }
        Ok(self.exprs.add(Expr::Star(part)))
    }

    /// A parenthesis, a production's name or a letter
    fn part(&mut self, levels: usize) -> Result<ExprId> {
        match self.token {
            Token::OpenParen => self.parenthesis(levels),
            Token::Name(_) => match self.known_name_here()? {
                Meaning::Production(production) => {
                    self.advance();
                    Ok(production)
                }
                _ => self.letter(),
            },
            _ => self.letter(),
        }
    }

    fn parenthesis(&mut self, levels: usize) -> Result<ExprId> {
        if levels == 0 {
            return self.refuse(Reason::Crowded);
        }
        self.advance();
        let inner = self.expression(levels - 1)?;
        self.expect(Token::CloseParen)?;
        Ok(inner)
    }
}

// Letters: literals and writes.
impl Parser<'_> {
    fn letter(&mut self) -> Result<ExprId> {
        let condition = self.literals(Within::Letter)?;
        let writes = if self.accept(Token::OpenBrace) {
            self.writes()?
        } else {
            Vec::new()
        };
        Ok(self.exprs.add_letter(Letter { condition, writes }))
    }

    /// Literals joined by `&`
    fn literals(&mut self, within: Within) -> Result<Condition> {
        let mut condition = Condition::default();
        loop {
            self.literal(within, &mut condition)?;
            if !self.accept(Token::And) {
                return Ok(condition);
            }
        }
    }

    fn literal(&mut self, within: Within, condition: &mut Condition) -> Result<()> {
        if self.accept(Token::Not) {
            return self.negated(condition);
        }
        match self.known_name_here()? {
            Meaning::Input(field) => self.wire_literal(field, within, condition),
            Meaning::Store(store) => self.store_literal(store, within, condition),
            Meaning::Define(number) => self.define_literal(number, within, condition),
            Meaning::Production(_) => self.refuse(Reason::Unknown),
        }
    }

    /// What stands behind a `!`: a one-bit wire or a wire bit.
    fn negated(&mut self, condition: &mut Condition) -> Result<()> {
        let Meaning::Input(field) = self.known_name_here()? else {
            return self.refuse(Reason::Unknown);
        };
        let name_at = self.at;
        self.advance();
        match self.token {
            Token::OpenBracket => self.bit(field, false, condition),
            Token::Equals => self.misplaced(),
            _ => bare_wire(field, name_at, false, condition),
        }
    }

    /// A literal begun by a wire's name: bare, `N[i]` or `N ==`.
    fn wire_literal(
        &mut self,
        field: Field,
        within: Within,
        condition: &mut Condition,
    ) -> Result<()> {
        let (name, name_at) = (self.token, self.at);
        self.advance();
        match self.token {
            Token::OpenBracket => self.bit(field, true, condition),
            Token::Equals => self.wire_equals(name, field, within, condition),
            _ => bare_wire(field, name_at, true, condition),
        }
    }

    /// `[i]`
    fn bit(&mut self, field: Field, stands: bool, condition: &mut Condition) -> Result<()> {
        self.expect(Token::OpenBracket)?;
        let index = self.number_here()?;
        if index >= u64::from(field.width) {
            return self.refuse(Reason::Oversize);
        }
        self.advance();
        self.expect(Token::CloseBracket)?;
        condition.require_bit(field, index as u32, stands);
        Ok(())
    }

    /// `== number`, `== past(N)` or `== store` behind a wire's name
    fn wire_equals(
        &mut self,
        name: Token<'_>,
        field: Field,
        within: Within,
        condition: &mut Condition,
    ) -> Result<()> {
        self.expect(Token::Equals)?;
        match self.token {
            Token::Number(_) => {
                let value = self.value_of_width(field.width)?;
                condition.require_value(field, value);
                Ok(())
            }
            Token::Past => self.past(name, field, condition),
            _ => self.wire_is_store(field, within, condition),
        }
    }

    /// `past(N)`; N can only be the same name once more, and whatever else
    /// stands there is misplaced.
    fn past(&mut self, name: Token<'_>, field: Field, condition: &mut Condition) -> Result<()> {
        self.expect(Token::Past)?;
        self.expect(Token::OpenParen)?;
        self.expect(name)?;
        self.expect(Token::CloseParen)?;
        condition.require_held(field);
        Ok(())
    }

    /// The store that a wire must be equal to
    fn wire_is_store(
        &mut self,
        field: Field,
        within: Within,
        condition: &mut Condition,
    ) -> Result<()> {
        let Meaning::Store(store) = self.known_name_here()? else {
            return self.refuse(Reason::Unknown);
        };
        if self.stores[store].width != field.width {
            return self.refuse(Reason::Oversize);
        }
        self.room_for_tests(1, within, condition)?;
        self.advance();
        condition.require_store(StoreTest::WireIs { field, store });
        Ok(())
    }

    /// `store == number`
    fn store_literal(
        &mut self,
        store: usize,
        within: Within,
        condition: &mut Condition,
    ) -> Result<()> {
        self.room_for_tests(1, within, condition)?;
        self.advance();
        self.expect(Token::Equals)?;
        let value = self.value_of_width(self.stores[store].width)?;
        condition.require_store(StoreTest::StoreIs { store, value });
        Ok(())
    }

    /// The name of a define
    fn define_literal(
        &mut self,
        number: usize,
        within: Within,
        condition: &mut Condition,
    ) -> Result<()> {
        let define = &self.defines[number];
        self.room_for_tests(define.store_tests(), within, condition)?;
        condition.require_all(define);
        self.advance();
        Ok(())
    }

    /// Judges whether the name here may bring `more` store tests.
    fn room_for_tests(&self, more: usize, within: Within, condition: &Condition) -> Result<()> {
        if within == Within::Letter && condition.store_tests() + more > limit::STORE_TESTS {
            return self.refuse(Reason::Crowded);
        }
        Ok(())
    }

    /// One or more writes and the closing `}`
    fn writes(&mut self) -> Result<Vec<Write>> {
        let mut writes = Vec::new();
        loop {
            let Meaning::Store(store) = self.known_name_here()? else {
                return self.refuse(Reason::Unknown);
            };
            if writes.len() >= limit::WRITES {
                return self.refuse(Reason::Crowded);
            }
            self.advance();
            self.expect(Token::Takes)?;
            let source = self.source(self.stores[store].width)?;
            self.expect(Token::Semicolon)?;
            writes.push(Write { store, source });
            if self.accept(Token::CloseBrace) {
                return Ok(writes);
            }
        }
    }

    /// The wire or number written into a store of `width` bits
    fn source(&mut self, width: u32) -> Result<Source> {
        if let Token::Number(_) = self.token {
            return Ok(Source::Number(self.value_of_width(width)?));
        }
        let Meaning::Input(field) = self.known_name_here()? else {
            return self.refuse(Reason::Unknown);
        };
        if field.width != width {
            return self.refuse(Reason::Oversize);
        }
        self.advance();
        Ok(Source::Wire(field))
    }
}

/// A wire's name standing alone, which only a one-bit wire may.
fn bare_wire(field: Field, name_at: usize, stands: bool, condition: &mut Condition) -> Result<()> {
    if field.width > 1 {
        return Err(Refusal::at_byte(Reason::Oversize, name_at));
    }
    condition.require_bit(field, 0, stands);
    Ok(())
}

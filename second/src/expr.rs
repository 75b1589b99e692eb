//! Expressions as the parser leaves them: nodes in one table, an operand
//! always standing before its operator.
//!
//! A production's name is not copied here: it is simply the number of the
//! production's node, so doubling productions cost nothing. What a copy would
//! count (letters, rows) is measured once for each node. A production has a
//! node of its own above its expression, so that `q -> a` and `p -> q` can be
//! told apart.

use crate::letter::Letter;

/// The number of a node in its table.
#[derive(Clone, Copy, Debug, PartialEq, Eq)]
pub struct ExprId(usize);

/// A node: a letter, an operator or a production.
#[derive(Clone, Copy, Debug, PartialEq, Eq)]
pub enum Expr {
    /// A letter, by its number in the table of letters.
    Letter(usize),
    /// `e*`
    Star(ExprId),
    /// `e , f`
    Sequence(ExprId, ExprId),
    /// `e || f`
    Choice(ExprId, ExprId),
    /// `e @ f`
    Pipeline(ExprId, ExprId),
    /// A production with this expression. It is nothing but its expression
    /// under a name, and adds no row.
    Production(ExprId),
}

/// What can be said of a node once its productions are opened. Letters are
/// counted from the node's own first letter. All counts stop at the greatest
/// number instead of overflowing.
#[derive(Clone, Copy, Debug, PartialEq, Eq)]
pub struct Measure {
    pub letters: u32,
    /// One for each letter and each operator.
    pub rows: u32,
    /// Whether the part can fit no ticks (the specification's "hollow").
    pub nullable: bool,
    /// The lowest letter whose wire literals no word meets.
    pub impossible: Option<u32>,
    /// The lowest first letter of a star's body or an operand of `@` that is
    /// nullable.
    pub hollow_part: Option<u32>,
}

impl Measure {
    /// Whether the node is one letter and no operator: its only row.
    pub fn is_one_letter(&self) -> bool {
        self.rows == 1
    }
}

/// The table of all nodes and letters of a text.
#[derive(Default)]
pub struct Exprs {
    nodes: Vec<(Expr, Measure)>,
    letters: Vec<Letter>,
}

impl Exprs {
    pub fn expr(&self, id: ExprId) -> Expr {
        self.nodes[id.0].0
    }

    pub fn measure(&self, id: ExprId) -> Measure {
        self.nodes[id.0].1
    }

    pub fn letter(&self, number: usize) -> &Letter {
        &self.letters[number]
    }

    pub fn add_letter(&mut self, letter: Letter) -> ExprId {
        self.letters.push(letter);
        self.add(Expr::Letter(self.letters.len() - 1))
    }

    pub fn add(&mut self, expr: Expr) -> ExprId {
        let measure = self.measure_of(expr);
        self.nodes.push((expr, measure));
        ExprId(self.nodes.len() - 1)
    }

    /// Measures a node whose operands stand in the table.
    fn measure_of(&self, expr: Expr) -> Measure {
        match expr {
            Expr::Letter(number) => Measure {
                letters: 1,
                rows: 1,
                nullable: false,
                impossible: self.letters[number].condition.is_impossible().then_some(0),
                hollow_part: None,
            },
            Expr::Star(body) => {
                let body = self.measure(body);
                Measure {
                    rows: body.rows.saturating_add(1),
                    nullable: true,
                    hollow_part: lowest(body.nullable.then_some(0), body.hollow_part),
                    ..body
                }
            }
            Expr::Sequence(left, right) => {
                let (left, right) = (self.measure(left), self.measure(right));
                joined(left, right, left.nullable && right.nullable)
            }
            Expr::Choice(left, right) => {
                let (left, right) = (self.measure(left), self.measure(right));
                joined(left, right, left.nullable || right.nullable)
            }
            Expr::Pipeline(left, right) => {
                let (left, right) = (self.measure(left), self.measure(right));
                let operand = lowest(
                    left.nullable.then_some(0),
                    right.nullable.then_some(left.letters),
                );
                let both = joined(left, right, false);
                Measure {
                    hollow_part: lowest(operand, both.hollow_part),
                    ..both
                }
            }
            Expr::Production(body) => self.measure(body),
        }
    }
}

/// The measure of two operands under one operator.
fn joined(left: Measure, right: Measure, nullable: bool) -> Measure {
    let behind_left = |letter: u32| left.letters.saturating_add(letter);
    Measure {
        letters: left.letters.saturating_add(right.letters),
        rows: left.rows.saturating_add(right.rows).saturating_add(1),
        nullable,
        impossible: lowest(left.impossible, right.impossible.map(behind_left)),
        hollow_part: lowest(left.hollow_part, right.hollow_part.map(behind_left)),
    }
}

/// The lower of two letters, where there is one.
fn lowest(one: Option<u32>, other: Option<u32>) -> Option<u32> {
    one.into_iter().chain(other).min()
}

#[cfg(test)]
mod tests {
    use super::*;
    use crate::letter::Condition;

    fn letter() -> Letter {
        Letter {
            condition: Condition::default(),
            writes: Vec::new(),
        }
    }

    #[test]
    fn doublings_are_counted_without_overflow() {
        let mut exprs = Exprs::default();
        let mut last = exprs.add_letter(letter());
        for doubling in 1..=100 {
            last = exprs.add(Expr::Sequence(last, last));
            let expected = 1u128 << doubling;
            let counted = u128::from(exprs.measure(last).letters);
            assert_eq!(counted, expected.min(u128::from(u32::MAX)));
        }
        assert_eq!(exprs.measure(last).rows, u32::MAX);
    }

    #[test]
    fn one_letter_stays_one_under_any_number_of_names() {
        let mut exprs = Exprs::default();
        let letter = exprs.add_letter(letter());
        let inner = exprs.add(Expr::Production(letter));
        let outer = exprs.add(Expr::Production(inner));
        assert_ne!(inner, outer);
        for id in [letter, inner, outer] {
            assert_eq!(exprs.measure(id), exprs.measure(letter));
            assert!(exprs.measure(id).is_one_letter());
        }
        for expr in [
            Expr::Star(outer),
            Expr::Sequence(letter, letter),
            Expr::Choice(outer, inner),
            Expr::Pipeline(inner, letter),
        ] {
            let id = exprs.add(expr);
            let named = exprs.add(Expr::Production(id));
            assert_eq!(exprs.measure(named), exprs.measure(id));
            assert!(!exprs.measure(named).is_one_letter());
        }
    }

    #[test]
    fn hollow_follows_the_operators() {
        let mut exprs = Exprs::default();
        let letter = exprs.add_letter(letter());
        let star = exprs.add(Expr::Star(letter));
        let nullable = |exprs: &mut Exprs, expr| {
            let id = exprs.add(expr);
            exprs.measure(id).nullable
        };
        assert!(!nullable(&mut exprs, Expr::Sequence(star, letter)));
        assert!(!nullable(&mut exprs, Expr::Sequence(letter, star)));
        assert!(nullable(&mut exprs, Expr::Sequence(star, star)));
        assert!(nullable(&mut exprs, Expr::Choice(letter, star)));
        assert!(nullable(&mut exprs, Expr::Choice(star, letter)));
        assert!(!nullable(&mut exprs, Expr::Choice(letter, letter)));
        assert!(!nullable(&mut exprs, Expr::Pipeline(star, star)));
    }

    #[test]
    fn the_lowest_hollow_part_is_named_by_its_first_letter() {
        let mut exprs = Exprs::default();
        let letter = exprs.add_letter(letter());
        let star = exprs.add(Expr::Star(letter));
        let pair = exprs.add(Expr::Sequence(letter, letter));
        let pipe = exprs.add(Expr::Pipeline(pair, star));
        assert_eq!(exprs.measure(pipe).hollow_part, Some(2));
        let later = exprs.add(Expr::Choice(pair, pipe));
        assert_eq!(exprs.measure(later).hollow_part, Some(4));
        let earlier = exprs.add(Expr::Pipeline(star, later));
        assert_eq!(exprs.measure(earlier).hollow_part, Some(0));
        let double = exprs.add(Expr::Star(star));
        let behind = exprs.add(Expr::Sequence(letter, double));
        assert_eq!(exprs.measure(behind).hollow_part, Some(1));
    }
}

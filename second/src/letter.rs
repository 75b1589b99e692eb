//! Letters: what one tick of an expression asks of the word and the stores,
//! and what it writes.

use crate::limit;

/// An input: `width` bits of the word from bit `low` on.
#[derive(Clone, Copy, Debug, PartialEq, Eq)]
pub struct Field {
    pub low: u32,
    pub width: u32,
}

impl Field {
    /// The field's value in a word.
    pub fn value(&self, word: u64) -> u64 {
        (word >> self.low) & largest(self.width)
    }

    /// The word that holds `value` in this field and zeros elsewhere.
    fn place(&self, value: u64) -> u64 {
        value << self.low
    }
}

/// The largest number of `width` bits (1 to 64).
pub fn largest(width: u32) -> u64 {
    u64::MAX >> (64 - width)
}

/// What a tick is judged by.
#[derive(Clone, Copy)]
pub struct Moment<'a> {
    pub word: u64,
    /// The word of the tick before; at tick 0, zero.
    pub before: u64,
    /// The store values before the tick.
    pub stores: &'a [u64],
}

/// A literal that looks at a store (its value before the tick).
#[derive(Clone, Copy, Debug, PartialEq, Eq)]
pub enum StoreTest {
    /// `wire == store`
    WireIs { field: Field, store: usize },
    /// `store == number`
    StoreIs { store: usize, value: u64 },
}

impl StoreTest {
    fn holds(&self, moment: Moment<'_>) -> bool {
        let Moment { word, stores, .. } = moment;
        match *self {
            StoreTest::WireIs { field, store } => field.value(word) == stores[store],
            StoreTest::StoreIs { store, value } => stores[store] == value,
        }
    }
}

/// Literals joined by `&`. All wire literals together say which bits must
/// stand and which must not, all `past` literals which must be those of the
/// word before; store tests are kept one by one.
#[derive(Clone, Debug, Default, PartialEq, Eq)]
pub struct Condition {
    ones: u64,
    zeros: u64,
    held: u64,
    tests: Vec<StoreTest>,
}

impl Condition {
    /// Adds the literal "bit `index` of the field stands" (or does not).
    pub fn require_bit(&mut self, field: Field, index: u32, stands: bool) {
        let bit = 1 << (field.low + index);
        if stands {
            self.ones |= bit;
        } else {
            self.zeros |= bit;
        }
    }

    /// Adds the literal `field == value`.
    pub fn require_value(&mut self, field: Field, value: u64) {
        self.ones |= field.place(value);
        self.zeros |= field.place(!value & largest(field.width));
    }

    /// Adds the literal `field == past(field)`.
    pub fn require_held(&mut self, field: Field) {
        self.held |= field.place(largest(field.width));
    }

    /// Adds a store test. One more than a letter may hold is kept, to know
    /// that there are too many (only a define can have them); further ones
    /// are dropped, so that defines joined to themselves stay small.
    pub fn require_store(&mut self, test: StoreTest) {
        if self.tests.len() <= limit::STORE_TESTS {
            self.tests.push(test);
        }
    }

    /// Adds all literals of another condition (a define).
    pub fn require_all(&mut self, other: &Condition) {
        self.ones |= other.ones;
        self.zeros |= other.zeros;
        self.held |= other.held;
        for test in &other.tests {
            self.require_store(*test);
        }
    }

    /// How many store tests there are; one more than allowed stands for all
    /// greater numbers.
    pub fn store_tests(&self) -> usize {
        self.tests.len()
    }

    /// Whether no word meets the wire literals ("impossible").
    pub fn is_impossible(&self) -> bool {
        self.ones & self.zeros != 0
    }

    /// Whether one word meets the wire literals of both.
    pub fn shares_a_word_with(&self, other: &Condition) -> bool {
        (self.ones | other.ones) & (self.zeros | other.zeros) == 0
    }

    /// Whether the moment meets all literals.
    pub fn holds(&self, moment: Moment<'_>) -> bool {
        let Moment { word, before, .. } = moment;
        word & self.ones == self.ones
            && word & self.zeros == 0
            && (word ^ before) & self.held == 0
            && self.tests.iter().all(|test| test.holds(moment))
    }
}

/// What a write puts into a store.
#[derive(Clone, Copy, Debug, PartialEq, Eq)]
pub enum Source {
    Wire(Field),
    Number(u64),
}

/// One write: `store <- wire;` or `store <- number;`.
#[derive(Clone, Copy, Debug, PartialEq, Eq)]
pub struct Write {
    pub store: usize,
    pub source: Source,
}

impl Write {
    /// Carries the write out; a written wire is that of the tick's word.
    pub fn apply(&self, word: u64, stores: &mut [u64]) {
        stores[self.store] = match self.source {
            Source::Wire(field) => field.value(word),
            Source::Number(value) => value,
        };
    }
}

/// A letter: one tick of an expression.
#[derive(Clone, Debug, PartialEq, Eq)]
pub struct Letter {
    pub condition: Condition,
    pub writes: Vec<Write>,
}

#[cfg(test)]
mod tests {
    use super::*;

    const WHOLE: Field = Field { low: 0, width: 64 };
    const HIGH: Field = Field { low: 60, width: 4 };

    /// Whether a condition holds at tick 0.
    fn holds(condition: &Condition, word: u64, stores: &[u64]) -> bool {
        condition.holds(Moment {
            word,
            before: 0,
            stores,
        })
    }

    /// Whether a condition holds for a word and the word before.
    fn holds_after(condition: &Condition, before: u64, word: u64) -> bool {
        condition.holds(Moment {
            word,
            before,
            stores: &[],
        })
    }

    #[test]
    fn fields_at_the_edges_of_the_word() {
        assert_eq!(WHOLE.value(u64::MAX), u64::MAX);
        assert_eq!(HIGH.value(0x9fff_ffff_ffff_ffff), 9);
        assert_eq!(largest(1), 1);
        assert_eq!(largest(64), u64::MAX);
    }

    #[test]
    fn values_fix_every_bit_of_their_field() {
        let mut nine = Condition::default();
        nine.require_value(HIGH, 9);
        assert!(holds(&nine, 0x9000_0000_0000_0001, &[]));
        assert!(!holds(&nine, 0xb000_0000_0000_0001, &[]));
        assert!(!holds(&nine, 0x1000_0000_0000_0001, &[]));

        let mut eight = Condition::default();
        eight.require_value(HIGH, 8);
        assert!(!nine.shares_a_word_with(&eight));
        eight.require_all(&nine);
        assert!(eight.is_impossible());
    }

    #[test]
    fn store_tests_are_no_part_of_impossible() {
        let mut both = Condition::default();
        both.require_store(StoreTest::StoreIs { store: 0, value: 1 });
        both.require_store(StoreTest::StoreIs { store: 0, value: 0 });
        assert!(!both.is_impossible());
        assert!(!holds(&both, 0, &[0]) && !holds(&both, 0, &[1]));
    }

    #[test]
    fn held_fields_look_at_their_own_bits_in_both_words() {
        let mut held = Condition::default();
        held.require_held(HIGH);
        assert!(holds_after(&held, 9 << 60, (9 << 60) + 5));
        assert!(!holds_after(&held, 9 << 60, 8 << 60));
        assert!(!holds_after(&held, 0, 1 << 63));
        held.require_held(WHOLE);
        assert!(holds_after(&held, u64::MAX, u64::MAX));
        assert!(!holds_after(&held, u64::MAX, u64::MAX - 1));
    }

    #[test]
    fn held_fields_are_no_part_of_impossible_nor_store_tests() {
        let mut held = Condition::default();
        held.require_held(HIGH);
        let mut nine = Condition::default();
        nine.require_value(HIGH, 9);
        nine.require_all(&held);
        assert!(!nine.is_impossible() && nine.shares_a_word_with(&held));
        assert_eq!(nine.store_tests(), 0);
        assert!(!holds(&nine, 9 << 60, &[]));
        assert!(holds_after(&nine, 9 << 60, 9 << 60));
    }

    #[test]
    fn doubled_defines_stay_small() {
        let mut define = Condition::default();
        define.require_store(StoreTest::WireIs {
            field: HIGH,
            store: 0,
        });
        for _ in 0..100 {
            let copy = define.clone();
            define.require_all(&copy);
        }
        assert_eq!(define.store_tests(), limit::STORE_TESTS + 1);
    }
}

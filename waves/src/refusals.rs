//! The words for what the line watch turns away: the table "What is turned away" of the specification.

/// A word for each number from 1 to 18, and when it is given.
const REFUSALS: [(&str, &str); 18] = [
    ("overlong", "the text has more than 16,384 bytes"),
    ("knot", "there is no token here, or a name or a number that is too long"),
    ("misplaced", "the grammar does not allow this token, or the end of the text, here"),
    ("unknown", "a name that is not declared above, or not of a kind allowed here"),
    ("twice", "a name that is declared already"),
    ("oversize", "a number, a bit index or a width that does not fit, or a field that is not followed by == or ["),
    ("crowded", "one more than a limit of the rule text allows"),
    ("long run", "the monitors have more than 256 letters"),
    ("impossible", "a letter whose wire literals no word meets"),
    ("hollow", "a star's body, an operand of @ or a monitor that may take no tick"),
    ("open end", "a letter that ends a thread and can also be followed inside it"),
    ("fork", "two letters side by side whose wire literals one word meets"),
    ("torn", "the record of this tick is cut short"),
    ("idle byte", "the record of this tick gives a byte that has not changed"),
    ("stray", "a bit is set above the wires of the rule text"),
    ("stopped", "a tick after a bad one"),
    ("full", "one tick more than the 1,000,000 that a watch takes"),
    ("short bin", "the room for a record is too small"),
];

/// The same for the numbers from 21 on, those of limits.
const OF_LIMITS: [(&str, &str); 2] = [
    ("stretch", "in limit PRODUCTION to N in W the N is over 1,023, or the W is not above the N or over 1,024"),
    ("not single", "a production to be limited that is not a single letter"),
];

/// What is said besides where the word `past` has to do with a misplaced token.
pub const PAST: &str = "; past stands only in WIRE == past(WIRE), both times the bare name of the same input";

/// What is said besides where the words of a limit have to do with a misplaced token.
pub const LIMIT: &str = "; limit, to and in stand only in limit PRODUCTION to NUMBER in NUMBER";

/// The word of a refusal's number.
pub fn word(number: usize) -> &'static str {
    entry(number).0
}

/// When a number is given, for people.
pub fn reason(number: usize) -> &'static str {
    entry(number).1
}

fn entry(number: usize) -> (&'static str, &'static str) {
    let found = match number {
        0 => None,
        1..=20 => REFUSALS.get(number - 1),
        _ => OF_LIMITS.get(number - 21),
    };
    found.copied().unwrap_or(("unnamed", "a number that the specification does not have"))
}

#[cfg(test)]
mod tests {
    use super::*;

    #[test]
    fn numbers_have_their_words() {
        assert_eq!([1, 2, 8, 12, 13, 18].map(word), ["overlong", "knot", "long run", "fork", "torn", "short bin"]);
        assert_eq!([21, 22].map(word), ["stretch", "not single"]);
        assert_eq!([0, 19, 20, 23, usize::MAX].map(word), ["unnamed"; 5]);
    }
}

//! A readable table into words, one for each tick.
//!
//! A row is `tick wire value`, or a tick alone: the trace lasts up to that tick. A wire keeps its value until a row changes it, and before the first
//! row all are 0. Values are decimal, or hexadecimal behind `0x`. `#` starts a comment, empty lines are skipped, and so is a heading
//! `tick wire value` in the first row.

use crate::rules::Wire;

/// The last tick that a table may name: the first that the line watch refuses as number 17.
const LAST_TICK: u128 = 1_000_000;

const HEADING: [&str; 3] = ["tick", "wire", "value"];

/// What is wrong, and in which line (from 1 on).
#[derive(Debug, PartialEq)]
pub struct Fault {
    pub line: usize,
    pub message: String,
}

/// The words of a table, up to the last tick that it names.
pub fn read(table: &[u8], wires: &[Wire]) -> Result<Vec<u64>, Fault> {
    let text = std::str::from_utf8(table).map_err(|error| not_utf_8(table, error.valid_up_to()))?;
    // Some editors put a byte order mark before the text.
    let text = text.strip_prefix('\u{feff}').unwrap_or(text);
    let mut trace = Trace { wires, words: Vec::new(), given: 0 };
    let mut first = true;
    for (index, line) in text.lines().enumerate() {
        let fields: Vec<&str> = line.split('#').next().unwrap_or("").split_whitespace().collect();
        let skipped = fields.is_empty() || first && fields == HEADING;
        if first && !skipped && fields[0].eq_ignore_ascii_case(HEADING[0]) {
            return Err(Fault { line: index + 1, message: format!("a heading must be: {}", HEADING.join(" ")) });
        }
        if !skipped {
            trace.row(&fields).map_err(|message| Fault { line: index + 1, message })?;
        }
        first = first && fields.is_empty();
    }
    Ok(trace.words)
}

fn not_utf_8(table: &[u8], place: usize) -> Fault {
    let line = 1 + table[..place].iter().filter(|&&b| b == b'\n').count();
    let message = format!("the table is not UTF-8 text (byte 0x{:02x} here); save it as plain text", table.get(place).unwrap_or(&0));
    Fault { line, message }
}

/// The words up to the tick of the last row, and the bits that have a value in this tick already.
struct Trace<'a> {
    wires: &'a [Wire],
    words: Vec<u64>,
    given: u64,
}

impl Trace<'_> {
    fn row(&mut self, fields: &[&str]) -> Result<(), String> {
        match *fields {
            [tick] => self.go_to(tick),
            [tick, wire, value] => {
                self.go_to(tick)?;
                self.give(wire, value)
            }
            _ => Err(format!("a row is a tick, a wire and a value, or a tick alone; this row has {} fields", fields.len())),
        }
    }

    /// Adds words up to a tick, each as the one before.
    fn go_to(&mut self, tick: &str) -> Result<(), String> {
        let number = number(tick, 10).ok_or_else(|| format!("the tick {tick:?} is no number; ticks are counted 0, 1, 2 and so on"))?;
        if number > LAST_TICK {
            return Err(format!("tick {tick} is over {LAST_TICK}, the last that a table may name"));
        }
        let length = number as usize + 1;
        if length < self.words.len() {
            return Err(format!("tick {number} stands below tick {}; ticks never go back, so move this row up", self.words.len() - 1));
        }
        if length > self.words.len() {
            self.words.resize(length, self.words.last().copied().unwrap_or(0));
            self.given = 0;
        }
        Ok(())
    }

    /// Gives a wire a value in the last tick.
    fn give(&mut self, name: &str, value: &str) -> Result<(), String> {
        let wire = self.wires.iter().find(|wire| wire.name == name).ok_or_else(|| self.no_wire(name))?;
        let number = match value.strip_prefix("0x") {
            Some(digits) => number(digits, 16),
            None => number(value, 10),
        };
        let number = number.ok_or_else(|| format!("the value {value:?} of wire {name} is no number; write it as 27 or as 0x1b"))?;
        if number > u128::from(wire.largest()) {
            return Err(too_large(wire, value));
        }
        if wire.value(self.given) != 0 {
            return Err(format!("wire {name} has a value in tick {} already; give it one value a tick", self.words.len() - 1));
        }
        self.given = wire.changed(self.given, wire.largest());
        if let Some(word) = self.words.last_mut() {
            *word = wire.changed(*word, number as u64);
        }
        Ok(())
    }

    fn no_wire(&self, name: &str) -> String {
        let names: Vec<&str> = self.wires.iter().map(|wire| wire.name.as_str()).collect();
        if names.is_empty() {
            return format!("the rule text has no wire {name:?}; it has no wires at all");
        }
        format!("the rule text has no wire {name:?}; its wires are {}", names.join(", "))
    }
}

fn too_large(wire: &Wire, value: &str) -> String {
    let bits = if wire.width == 1 { String::from("1 bit") } else { format!("{} bits", wire.width) };
    let largest = wire.largest();
    format!("the value {value} is too large for wire {}, which has {bits}: at most {largest} (0x{largest:x})", wire.name)
}

/// The number that digits stand for; one beyond all limits for more digits than 128 bits hold.
fn number(digits: &str, radix: u32) -> Option<u128> {
    let all = !digits.is_empty() && digits.chars().all(|c| c.is_digit(radix));
    all.then(|| u128::from_str_radix(digits, radix).unwrap_or(u128::MAX))
}

#[cfg(test)]
mod tests {
    use super::*;

    fn wires() -> Vec<Wire> {
        let wire = |name, low, width| Wire { name: String::from(name), low, width };
        vec![wire("a", 0, 1), wire("f", 1, 8), wire("b", 9, 1)]
    }

    fn words(table: &str) -> Vec<u64> {
        read(table.as_bytes(), &wires()).unwrap()
    }

    fn fault(table: &[u8], line: usize, message: &str) {
        assert_eq!(read(table, &wires()), Err(Fault { line, message: String::from(message) }));
    }

    #[test]
    fn wires_keep_their_value() {
        assert_eq!(words("tick wire value\n\n# a comment\n1 a 1 # on\n1 f 0xfF\n3 a 0\n3 b 1\n5\n"), [0, 0x1ff, 0x1ff, 0x3fe, 0x3fe, 0x3fe]);
    }

    #[test]
    fn a_tick_alone_changes_nothing() {
        assert_eq!(words("0\n"), [0]);
        assert_eq!(words("0 a 1\n0\n2\n2 a 0\n2\n"), [1, 1, 0]);
    }

    #[test]
    fn a_table_may_be_empty_or_a_heading_alone() {
        assert_eq!(words(""), []);
        assert_eq!(words("# nothing\n\n  tick\twire value # heading\n"), []);
    }

    #[test]
    fn line_ends_and_marks_of_other_systems_are_taken() {
        assert_eq!(words("\u{feff}tick wire value\r\n0 a 1\r\n"), [1]);
    }

    #[test]
    fn the_last_tick_is_a_million() {
        assert_eq!(words("1000000\n").len(), 1_000_001);
        fault(b"0\n1000001\n", 2, "tick 1000001 is over 1000000, the last that a table may name");
        let digits = "9".repeat(60);
        fault(digits.as_bytes(), 1, &format!("tick {digits} is over 1000000, the last that a table may name"));
    }

    #[test]
    fn ticks_are_numbers_that_go_up() {
        fault(b"x a 1\n", 1, "the tick \"x\" is no number; ticks are counted 0, 1, 2 and so on");
        fault(b"+1\n", 1, "the tick \"+1\" is no number; ticks are counted 0, 1, 2 and so on");
        fault(b"0 a 1\ntick wire value\n", 2, "the tick \"tick\" is no number; ticks are counted 0, 1, 2 and so on");
        fault(b"\n5 a 1\n4 a 0\n", 3, "tick 4 stands below tick 5; ticks never go back, so move this row up");
    }

    #[test]
    fn a_heading_names_tick_wire_and_value() {
        fault(b"# columns\nTick Wire Value\n0 a 1\n", 2, "a heading must be: tick wire value");
        fault(b"tick a f b\n", 1, "a heading must be: tick wire value");
    }

    #[test]
    fn wires_are_those_of_the_text() {
        fault(b"0 A 1\n", 1, "the rule text has no wire \"A\"; its wires are a, f, b");
        fault(b"0 f[0] 1\n", 1, "the rule text has no wire \"f[0]\"; its wires are a, f, b");
        let none = read(b"0 a 1", &[]).unwrap_err();
        assert_eq!(none.message, "the rule text has no wire \"a\"; it has no wires at all");
    }

    #[test]
    fn values_are_numbers_that_fit() {
        fault(b"0 a on\n", 1, "the value \"on\" of wire a is no number; write it as 27 or as 0x1b");
        fault(b"0 a -1\n", 1, "the value \"-1\" of wire a is no number; write it as 27 or as 0x1b");
        fault(b"0 f ff\n", 1, "the value \"ff\" of wire f is no number; write it as 27 or as 0x1b");
        fault(b"0 f 0x\n", 1, "the value \"0x\" of wire f is no number; write it as 27 or as 0x1b");
        fault(b"0 a 2\n", 1, "the value 2 is too large for wire a, which has 1 bit: at most 1 (0x1)");
        fault(b"0 f 0x100\n", 1, "the value 0x100 is too large for wire f, which has 8 bits: at most 255 (0xff)");
        let all = [Wire { name: String::from("g"), low: 0, width: 64 }];
        assert_eq!(read(b"0 g 18446744073709551615", &all), Ok(vec![u64::MAX]));
        let message = read(b"0 g 18446744073709551616", &all).unwrap_err().message;
        assert!(message.starts_with("the value 18446744073709551616 is too large for wire g, which has 64 bits"));
    }

    #[test]
    fn a_wire_takes_one_value_a_tick() {
        fault(b"3 a 1\n3 b 1\n3 a 1\n", 3, "wire a has a value in tick 3 already; give it one value a tick");
        fault(b"3 f 0\n3 f 0\n", 2, "wire f has a value in tick 3 already; give it one value a tick");
    }

    #[test]
    fn rows_have_one_field_or_three() {
        fault(b"0 a\n", 1, "a row is a tick, a wire and a value, or a tick alone; this row has 2 fields");
        fault(b"0 a 1 b\n", 1, "a row is a tick, a wire and a value, or a tick alone; this row has 4 fields");
    }

    #[test]
    fn tables_are_utf_8() {
        fault(b"0 a 1\n1 a \xff\n", 2, "the table is not UTF-8 text (byte 0xff here); save it as plain text");
        assert_eq!(words("0 a 1 # caf\u{e9}\n"), [1]);
    }
}

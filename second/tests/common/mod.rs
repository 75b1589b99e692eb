//! What the tests share: short ways to run texts.

#![allow(dead_code)] // not every test file uses all of it

use second::{Place, Refusal};

/// A text with one-bit wires a, b, c and one production, the only monitor.
pub fn abc(expression: &str) -> String {
    format!("input a; input b; input c; p -> {expression}; monitor p;")
}

/// The sheet of a text over words.
pub fn sheet(text: &str, words: &[u64]) -> String {
    let sheet = second::sheet(text.as_bytes(), &trace(words));
    String::from_utf8(sheet).expect("a sheet is plain text")
}

/// The last line of that sheet above its foot. None but a refusal lacks one.
pub fn last_line(text: &str, words: &[u64]) -> String {
    let sheet = sheet(text, words);
    let (above, foot) = cut_foot(&sheet);
    let last = above.last().expect("a sheet has a line");
    assert_eq!(foot.is_empty(), last.starts_with("refused "), "{sheet}");
    last.to_string()
}

/// The lines of a sheet, or of an answer to calls, above its foot and in it.
pub fn cut_foot(printed: &str) -> (Vec<&str>, Vec<&str>) {
    assert!(printed.ends_with('\n'));
    let mut above: Vec<&str> = printed.lines().collect();
    let begins = |line: &&str| line.starts_with("met ") || line.starts_with("total ");
    let end = above.iter().position(begins).unwrap_or(above.len());
    let foot = above.split_off(end);
    (above, foot)
}

/// The foot with these totals, monitor by monitor, and this sum.
pub fn foot(totals: &[&[u32]], sum: u32) -> String {
    let mut foot = String::new();
    for (monitor, letters) in totals.iter().enumerate() {
        for (letter, count) in letters.iter().enumerate() {
            foot += &format!("met {monitor} {letter} {count}\n");
        }
    }
    foot + &format!("total {sum}\n")
}

/// The records of words.
pub fn trace(words: &[u64]) -> Vec<u8> {
    let mut trace = Vec::new();
    let mut before = 0;
    for &word in words {
        let mut record = [0; second::record::LONGEST];
        let length = second::record::write(before, word, &mut record).unwrap();
        trace.extend(&record[..length]);
        before = word;
    }
    trace
}

/// The row and letter counts of a text that is accepted.
pub fn counts(text: &str) -> (u32, u32) {
    match second::open(text.as_bytes()) {
        Ok(program) => (program.rows(), program.letters()),
        Err(refusal) => panic!("{refusal}: {text}"),
    }
}

/// The refusal of a text that is not accepted.
pub fn refusal(text: &[u8]) -> Refusal {
    match second::open(text) {
        Ok(_) => panic!("accepted: {}", String::from_utf8_lossy(text)),
        Err(refusal) => refusal,
    }
}

/// Checks that a text is refused with this number at this monitor and letter.
pub fn refused_at_letter(number: u8, monitor: usize, letter: usize, text: &str) {
    let refusal = refusal(text.as_bytes());
    let expected = (number, Place::Letter { monitor, letter });
    assert_eq!((refusal.number(), refusal.place), expected, "{text}");
}

/// Checks that a text is refused with this number at the byte marked by `^`.
/// The mark itself is taken out.
pub fn refused_at_mark(number: u8, marked: &str) {
    let byte = marked.find('^').expect("the text has a mark");
    let text = marked.replacen('^', "", 1);
    let refusal = refusal(text.as_bytes());
    assert_eq!(
        (refusal.number(), refusal.place),
        (number, Place::Byte(byte)),
        "{marked}"
    );
}

/// The numbers of a linear congruential generator, for tests that need many
/// different but always the same cases.
pub struct Numbers(pub u64);

impl Numbers {
    /// A number below `bound`.
    pub fn below(&mut self, bound: usize) -> usize {
        self.0 = self
            .0
            .wrapping_mul(6364136223846793005)
            .wrapping_add(1442695040888963407);
        ((self.0 >> 33) as usize) % bound
    }
}

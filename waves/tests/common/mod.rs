//! The cases that the tests of the waveforms go over: those that stand in the tree, and some at the edges.

use std::fs;
use std::path::{Path, PathBuf};
use waves::library;

/// A rule text and a trace, with a name for messages.
pub struct Case {
    pub name: String,
    pub text: Vec<u8>,
    pub trace: Vec<u8>,
}

impl Case {
    fn new(name: &str, text: &str, trace: Vec<u8>) -> Case {
        Case { name: String::from(name), text: text.as_bytes().to_vec(), trace }
    }

    pub fn sheet(&self) -> String {
        String::from_utf8(library::sheet(&self.text, &self.trace)).unwrap()
    }

    /// The words of the sheet, read here anew: the second field of each line that begins with a number.
    pub fn words(&self) -> Vec<u64> {
        let sheet = self.sheet();
        let ticks = sheet.lines().filter(|line| line.starts_with(|c: char| c.is_ascii_digit()));
        ticks.map(|line| u64::from_str_radix(line.split(' ').nth(1).unwrap(), 16).unwrap()).collect()
    }

    /// The fields of the line with which the ticks end: the last one above the foot.
    pub fn last_line(&self) -> Vec<String> {
        let sheet = self.sheet();
        let is_foot = |line: &&str| line.starts_with("met ") || line.starts_with("total ");
        let line = sheet.lines().rev().find(|line| !is_foot(line)).unwrap();
        line.split(' ').map(String::from).collect()
    }
}

/// All cases but refused texts, which have no waveform.
pub fn cases() -> Vec<Case> {
    let mut cases = edge_cases();
    let root = Path::new(env!("CARGO_MANIFEST_DIR")).join("..");
    let folders = entries(&root.join("cases")).into_iter().chain(entries(&root.join("examples")));
    for folder in folders.filter(|folder| !folder.ends_with("examples/refused")) {
        for trace in entries(&folder) {
            if trace.extension().is_some_and(|end| end == "bin") {
                let text = fs::read(folder.join("rules.txt")).unwrap();
                cases.push(Case { name: trace.display().to_string(), text, trace: fs::read(&trace).unwrap() });
            }
        }
    }
    cases.retain(|case| !library::sheet(&case.text, &[]).starts_with(b"refused"));
    assert!(cases.len() > 100, "the tree has {} cases only", cases.len());
    cases
}

fn entries(folder: &Path) -> Vec<PathBuf> {
    match fs::read_dir(folder) {
        Ok(entries) => entries.map(|entry| entry.unwrap().path()).collect(),
        Err(_) => Vec::new(),
    }
}

/// Two limits of one production, which has every tick at which wire a is 1; a bad monitor comes before both.
const LIMITED: &str = "input a; input b; x -> a; p -> x || !a; q -> !b; limit x to 2 in 8; limit x to 1 in 3; monitor p, q;";

/// The field may change only where the wire stands.
const HELD: &str = "input a; input D[7:0]; p -> a || !a & D == past(D); monitor p;";

fn edge_cases() -> Vec<Case> {
    let one = "input a; input b; p -> a || !a; monitor p;";
    let wide = "input D[63:0]; p -> D[0] || !D[0]; monitor p;";
    let long = "input sixteen_letters_[59:0]; input b; input c[2:0]; p -> b || !b & c == 1; monitor p;";
    let scrambled = |count: u64, bits: u32| -> Vec<u8> {
        let words: Vec<u64> = (1..=count).map(|i| i.wrapping_mul(0x9e37_79b9_7f4a_7c15) >> (64 - bits)).collect();
        library::trace(&words)
    };
    let many: String = (0..64).map(|i| format!("input w{i};")).collect();
    vec![
        Case::new("no ticks", one, vec![]),
        Case::new("one tick", one, vec![1, 3]),
        Case::new("torn at once", one, vec![1]),
        Case::new("torn", one, vec![1, 1, 0, 3, 1]),
        Case::new("idle byte", one, vec![1, 1, 1, 1]),
        Case::new("stray", one, vec![1, 1, 1, 4]),
        Case::new("full", one, library::trace(&(0..1_000_001).map(|i| i & 1).collect::<Vec<u64>>())),
        Case::new("bad at once", "input a; p -> a; q -> !a; monitor p, q;", vec![1, 1]),
        Case::new("no wires", "internal s = 0; p -> s == 0; monitor p;", vec![0, 0]),
        Case::new("no wires, no ticks", "internal s = 0; p -> s == 0; monitor p;", vec![]),
        Case::new("no wires, stray", "internal s = 0; p -> s == 0; monitor p;", vec![1, 1]),
        Case::new("all bits in one field", wide, scrambled(200, 64)),
        Case::new("a field kept up to a bad tick", "input D[63:0]; p -> D[0], D[0], !D[0]; monitor p;", library::trace(&[u64::MAX; 3])),
        Case::new("a long name", long, scrambled(99, 64)),
        Case::new("all wires", &format!("{many} p -> w0 || !w0; monitor p;"), scrambled(70, 64)),
        Case::new("a held field that moves", HELD, library::trace(&[0, 1 + 2 * 5, 2 * 5, 2 * 5, 2 * 4])),
        Case::new("a held field that stays", HELD, library::trace(&[0, 0, 1 + 2 * 200, 2 * 200, 1 + 2 * 7])),
        Case::new("a limit", LIMITED, library::trace(&[1, 0, 0, 1, 0, 0, 1])),
        Case::new("the second limit", LIMITED, library::trace(&[1, 0, 0, 1, 0, 1])),
        Case::new("a limit that is kept", LIMITED, library::trace(&[1, 0, 0, 1, 0, 0, 0, 0, 1])),
        Case::new("a monitor where a limit is passed too", LIMITED, library::trace(&[1, 0, 3])),
        Case::new("the longest limit", "input a; x -> a; limit x to 1023 in 1024; monitor x;", library::trace(&[1; 1024])),
        Case::new("a field of one bit", "input a[0:0]; input b[1:0]; p -> a || !a; monitor p;", scrambled(9, 3)),
    ]
}

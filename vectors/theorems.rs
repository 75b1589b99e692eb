// Turns cases into a module of theorems for the prover: the sheet that the definitions compute is the
// case's own. Takes the case file, the module of examples, the first case and how many.

use std::env;
use std::fs;

// Chained productions whose nested stars, written out, are a tree of many thousand rows.
const LEFT_OUT: [&str; 1] = ["hollow-chain"];

struct Case {
    name: String,
    text: Vec<u8>,
    trace: Vec<u8>,
    sheet: Vec<u8>,
}

fn part(file: &[u8], at: &mut usize) -> Vec<u8> {
    let length = u32::from_le_bytes(file[*at..*at + 4].try_into().unwrap()) as usize;
    *at += 4 + length;
    file[*at - length..*at].to_vec()
}

fn cases(file: &[u8]) -> Vec<Case> {
    let mut at = 0;
    let mut list = Vec::new();
    while at < file.len() {
        list.push(Case {
            name: String::from_utf8_lossy(&part(file, &mut at)).into_owned(),
            text: part(file, &mut at),
            trace: part(file, &mut at),
            sheet: part(file, &mut at),
        });
    }
    list
}

fn list(bytes: &[u8]) -> String {
    let mut text = String::new();
    for byte in bytes {
        text.push_str(&format!("{byte} ∷ "));
    }
    text + "[]"
}

// The head of the module of examples has the imports, and its first theorem the definitions to unfold.
fn head(examples: &str) -> (String, &str) {
    let uses: Vec<&str> = examples.lines().filter(|line| line.starts_with("use ")).collect();
    let unfolding = examples.lines().find(|line| line.starts_with("unfolding ")).expect("no line `unfolding`");
    (uses.join("\n"), unfolding)
}

fn main() {
    let words: Vec<String> = env::args().collect();
    let number = |k: usize| words[k].parse::<usize>().expect("a number");
    let file = fs::read(&words[1]).expect("the case file");
    let examples = fs::read_to_string(&words[2]).expect("the module of examples");
    let (uses, unfolding) = head(&examples);
    println!("-- Cases as theorems.\n{uses}\n");
    for (k, case) in cases(&file).iter().enumerate().skip(number(3)).take(number(4)) {
        if LEFT_OUT.contains(&case.name.as_str()) {
            eprintln!("left out: {}", case.name);
            continue;
        }
        println!(
            "case{k} : sheet ({}) ({}) ≡ {}\n{unfolding}\ncase{k} = refl\n",
            list(&case.text),
            list(&case.trace),
            list(&case.sheet)
        );
    }
}

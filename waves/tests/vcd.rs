//! Reads value change dumps back, with a reader that knows nothing of the writer, and compares them with the sheets.

mod common;

use common::Case;
use std::collections::BTreeMap;
use waves::{rules, sheet, vcd};

/// A variable as declared, with its value at each time; none is x.
struct Variable {
    scope: String,
    name: String,
    width: usize,
    values: Vec<Option<u64>>,
}

/// Reads a dump: the variables in the order of their declaration. Every form that is not expected here is a failure.
fn read(dump: &str) -> Vec<Variable> {
    let mut variables: Vec<Variable> = Vec::new();
    let mut codes: BTreeMap<String, usize> = BTreeMap::new();
    let mut now: Vec<Option<Option<u64>>> = Vec::new();
    let mut scopes: Vec<String> = Vec::new();
    let mut time = None;
    let mut dumping = false;
    let mut tokens = dump.split_whitespace();
    while let Some(token) = tokens.next() {
        match token {
            "$comment" | "$timescale" | "$enddefinitions" => assert!(tokens.any(|t| t == "$end")),
            "$upscope" => {
                assert_eq!(tokens.next(), Some("$end"));
                scopes.pop().unwrap();
            }
            "$scope" => {
                let said: Vec<&str> = tokens.by_ref().take(3).collect();
                assert_eq!((said[0], said[2]), ("module", "$end"));
                scopes.push(String::from(said[1]));
            }
            "$var" => {
                let said: Vec<&str> = tokens.by_ref().take_while(|&t| t != "$end").collect();
                let width: usize = said[1].parse().unwrap();
                assert_eq!(said[0], "wire");
                if width == 1 {
                    assert_eq!(said.len(), 4, "{said:?}");
                } else {
                    assert_eq!(said[4..], [format!("[{}:0]", width - 1)]);
                }
                assert!(said[2].bytes().all(|b| (b'!'..=b'~').contains(&b)));
                assert_eq!(codes.insert(String::from(said[2]), variables.len()), None, "a code is used twice");
                variables.push(Variable { scope: scopes.join("."), name: String::from(said[3]), width, values: Vec::new() });
                now.push(None);
            }
            "$dumpvars" => dumping = true,
            "$end" => {
                assert!(dumping && now.iter().all(Option::is_some), "all values are given at first");
                dumping = false;
            }
            _ if token.starts_with('#') => {
                let next: usize = token[1..].parse().unwrap();
                assert!(time.is_none_or(|time| time < next), "time goes on");
                for (variable, value) in variables.iter_mut().zip(&now) {
                    variable.values.resize(next, value.flatten());
                }
                time = Some(next);
            }
            _ => {
                let (value, code) = match token.strip_prefix('b') {
                    Some(value) => (value, tokens.next().unwrap()),
                    None => token.split_at(1),
                };
                let index = codes[code];
                assert_eq!(token.starts_with('b'), variables[index].width > 1, "vectors and scalars");
                assert!(value.len() <= variables[index].width);
                let value = if value == "x" { None } else { Some(u64::from_str_radix(value, 2).unwrap()) };
                assert_eq!(now[index].is_none(), dumping, "first values are given once");
                assert_ne!(now[index], Some(value), "only changes are given");
                now[index] = Some(value);
            }
        }
    }
    assert!(scopes.is_empty());
    variables
}

fn dump(case: &Case) -> String {
    vcd::write(&rules::open(&case.text).unwrap(), &sheet::read(case.sheet().as_bytes()).unwrap())
}

#[test]
fn dumps_say_what_the_sheets_say() {
    for case in common::cases() {
        let name = &case.name;
        let (wires, watch): (Vec<Variable>, Vec<Variable>) = read(&dump(&case)).into_iter().partition(|v| v.scope == "line");
        let mut words: Vec<Option<u64>> = case.words().into_iter().map(Some).collect();
        let last_line = case.last_line();
        let refused = last_line[0] == "refused";
        if refused {
            assert_eq!(last_line[2], words.len().to_string());
            words.push(None);
        }
        let mut low = 0;
        for wire in &wires {
            let due: Vec<Option<u64>> = words.iter().map(|w| w.map(|w| w >> low & (u64::MAX >> (64 - wire.width)))).collect();
            assert!(wire.values == due, "{name}: wire {}", wire.name);
            low += wire.width;
        }
        let known = if low == 64 { u64::MAX } else { (1 << low) - 1 };
        assert!(words.iter().flatten().all(|word| word & !known == 0), "{name}: a bit of a word has no wire");

        let last = words.len().saturating_sub(1);
        let bad = last_line.iter().position(|field| field == "bad").map(|at| last_line[at + 1].parse::<u64>().unwrap());
        let at_last = |value: Option<u64>, other: Option<u64>| -> Vec<Option<u64>> {
            (0..words.len()).map(|tick| if tick == last { value } else { other }).collect()
        };
        let names: Vec<(&str, usize)> = watch.iter().map(|v| (v.name.as_str(), v.width)).collect();
        assert_eq!(names, [("bad", 1), ("monitor", 8), ("refused", 8)]);
        assert!(watch[0].values == at_last(Some(u64::from(bad.is_some())), Some(0)), "{name}: bad");
        assert!(watch[1].values == at_last(bad, None), "{name}: monitor");
        let number = if refused { last_line[1].parse().unwrap() } else { 0 };
        assert!(watch[2].values == at_last(Some(number), Some(0)), "{name}: refused");
    }
}

#[test]
fn wires_are_declared_by_name_and_in_order() {
    let case = common::cases().into_iter().find(|case| case.name.ends_with("ahb_slave/bad_unsplit_twice.bin")).unwrap();
    let variables = read(&dump(&case));
    let names: Vec<(&str, usize)> = variables.iter().filter(|v| v.scope == "line").map(|v| (v.name.as_str(), v.width)).collect();
    assert_eq!(names, [("HTRANS", 2), ("HREADY", 1), ("HSEL", 1), ("HMASTER", 4), ("HRESP", 2), ("HSPLIT", 16)]);
}

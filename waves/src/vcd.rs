//! A waveform as a value change dump (IEEE 1364), which wave viewers read.
//!
//! One time unit is one tick. Scope `line` has the wires, scope `watch` the verdict: `bad` rises at the bad tick, `monitor` is the monitor's number
//! there, or 32 and the number of a limit added up, and x elsewhere, `refused` is the refusal's number at the tick refused and 0 elsewhere. At a
//! refused tick the wires are x, as the sheet has no word for it. After the first values only changes are written.

use crate::rules::{Rules, Wire};
use crate::sheet::{End, Sheet};

/// A variable's width, and its value at a tick; none is x.
struct Variable<'a> {
    width: u32,
    value: Box<dyn Fn(usize) -> Option<u64> + 'a>,
}

/// The waveform of a sheet.
pub fn write(rules: &Rules, sheet: &Sheet) -> String {
    let mut out = header(rules, sheet);
    let variables = variables(rules, sheet);
    out.push_str("#0\n$dumpvars\n");
    for (index, variable) in variables.iter().enumerate() {
        out.push_str(&change(index, variable.width, (variable.value)(0)));
    }
    out.push_str("$end\n");
    for tick in 1..sheet.ticks() {
        let mut changes = String::new();
        for (index, variable) in variables.iter().enumerate() {
            let value = (variable.value)(tick);
            if value != (variable.value)(tick - 1) {
                changes.push_str(&change(index, variable.width, value));
            }
        }
        if !changes.is_empty() {
            out.push_str(&format!("#{tick}\n{changes}"));
        }
    }
    if sheet.ticks() > 0 {
        out.push_str(&format!("#{}\n", sheet.ticks()));
    }
    out
}

/// The declarations, in the order of `variables`.
fn header(rules: &Rules, sheet: &Sheet) -> String {
    let mut out = format!("$comment {}; one time unit is one tick $end\n$timescale 1 ns $end\n", sheet.verdict(rules));
    out.push_str("$scope module line $end\n");
    for (index, wire) in rules.wires.iter().enumerate() {
        out.push_str(&declaration(index, wire.width, &wire.name));
    }
    out.push_str("$upscope $end\n$scope module watch $end\n");
    for (index, (name, width)) in [("bad", 1), ("monitor", 8), ("refused", 8)].into_iter().enumerate() {
        out.push_str(&declaration(rules.wires.len() + index, width, name));
    }
    out.push_str("$upscope $end\n$enddefinitions $end\n");
    out
}

fn declaration(index: usize, width: u32, name: &str) -> String {
    let range = if width == 1 { String::new() } else { format!(" [{}:0]", width - 1) };
    format!("$var wire {width} {} {name}{range} $end\n", code(index))
}

/// The variables: the wires, then `bad`, `monitor` and `refused`.
fn variables<'a>(rules: &'a Rules, sheet: &'a Sheet) -> Vec<Variable<'a>> {
    let last = sheet.ticks().saturating_sub(1);
    let (bad, refused) = match sheet.end {
        End::Clean => (None, None),
        End::Bad(number) => (Some(number as u64), None),
        End::Refused(number) => (None, Some(number as u64)),
    };
    let wire = |wire: &'a Wire| Variable { width: wire.width, value: Box::new(|tick| Some(wire.value(*sheet.words.get(tick)?))) };
    let mut variables: Vec<Variable> = rules.wires.iter().map(wire).collect();
    variables.push(Variable { width: 1, value: Box::new(move |tick| Some(u64::from(tick == last && bad.is_some()))) });
    variables.push(Variable { width: 8, value: Box::new(move |tick| bad.filter(|_| tick == last)) });
    variables.push(Variable { width: 8, value: Box::new(move |tick| Some(refused.filter(|_| tick == last).unwrap_or(0))) });
    variables
}

/// One printable character stands for a variable; there are at most 64 wires and three more, and 94 such characters.
fn code(index: usize) -> char {
    char::from(b'!' + (index % 94) as u8)
}

fn change(index: usize, width: u32, value: Option<u64>) -> String {
    let digits = value.map_or(String::from("x"), |value| format!("{value:b}"));
    let code = code(index);
    if width == 1 {
        format!("{digits}{code}\n")
    } else {
        format!("b{digits} {code}\n")
    }
}

#[cfg(test)]
mod tests {
    use super::*;
    use crate::{library, rules, sheet};

    fn waveform(text: &[u8], trace: &[u8]) -> String {
        write(&rules::open(text).unwrap(), &sheet::read(&library::sheet(text, trace)).unwrap())
    }

    #[test]
    fn a_bad_tick() {
        let text = b"input a; input f[3:0]; p -> a & f == 5, !a; monitor p;";
        assert_eq!(
            waveform(text, &[1, 0x0b, 1, 0x0a, 1, 0x0a ^ 1, 1, 0x19]),
            "$comment bad at tick 3: monitor 0 (p); one time unit is one tick $end\n$timescale 1 ns $end\n\
             $scope module line $end\n$var wire 1 ! a $end\n$var wire 4 \" f [3:0] $end\n$upscope $end\n\
             $scope module watch $end\n$var wire 1 # bad $end\n$var wire 8 $ monitor [7:0] $end\n$var wire 8 % refused [7:0] $end\n$upscope $end\n\
             $enddefinitions $end\n\
             #0\n$dumpvars\n1!\nb101 \"\n0#\nbx $\nb0 %\n$end\n#1\n0!\n#2\n1!\n#3\nb1100 \"\n1#\nb0 $\n#4\n"
        );
    }

    /// The second limit is named, as the sheet names it: 33.
    #[test]
    fn a_tick_beyond_a_limit() {
        let text = b"input a; x -> a; limit x to 2 in 9; limit x to 1 in 2; monitor x;";
        let all = waveform(text, &[1, 1, 0]);
        assert!(all.starts_with("$comment bad at tick 1: limit 1 (x to 1 in 2); one time unit is one tick $end\n"), "{all}");
        assert!(all.ends_with("#0\n$dumpvars\n1!\n0\"\nbx #\nb0 $\n$end\n#1\n1\"\nb100001 #\n#2\n"), "{all}");
    }

    #[test]
    fn a_refused_tick() {
        let end = waveform(b"input a; p -> a; monitor p;", &[1, 1, 1]).split_off(250);
        assert!(end.ends_with("#0\n$dumpvars\n1!\n0\"\nbx #\nb0 $\n$end\n#1\nx!\nb1101 $\n#2\n"), "{end}");
    }

    #[test]
    fn no_ticks() {
        let all = waveform(b"input a; p -> a; monitor p;", &[]);
        assert!(all.ends_with("#0\n$dumpvars\nx!\n0\"\nbx #\nb0 $\n$end\n"), "{all}");
    }
}

//! Opening a rule text: its time as a ratio to `second`'s, in one run. Both sides go from the text's bytes to a watch before tick 0,
//! and their answers (number and place, or both counts) must agree.

use second::{Place, Watch};
use std::hint::black_box;
use std::time::Instant;

extern "C" {
    fn rules_bench_open(text: *const u8, len: usize) -> u64;
}

fn proved(text: &[u8]) -> u64 {
    unsafe { rules_bench_open(text.as_ptr(), text.len()) }
}

/// The answer in one word, as `rules_bench_open` packs it.
fn packed(number: u8, a: usize, b: usize) -> u64 {
    (u64::from(number) << 32) + ((a as u64) << 16) + b as u64
}

fn plain(text: &[u8]) -> u64 {
    match second::open(text) {
        Ok(program) => {
            black_box(Watch::new(&program));
            packed(0, program.rows() as usize, program.letters() as usize)
        }
        Err(refusal) => match refusal.place {
            Place::Byte(at) => packed(refusal.number(), at, 0),
            Place::Letter { monitor, letter } => packed(refusal.number(), monitor, letter),
            Place::Tick(_) | Place::Nowhere => packed(refusal.number(), 0, 0),
        },
    }
}

const RUNS: usize = 201;

fn median(mut times: Vec<f64>) -> f64 {
    times.sort_by(f64::total_cmp);
    times[times.len() / 2]
}

fn time(open: fn(&[u8]) -> u64, text: &[u8], rounds: usize) -> f64 {
    let start = Instant::now();
    for _ in 0..rounds {
        black_box(open(black_box(text)));
    }
    start.elapsed().as_secs_f64() / rounds as f64
}

fn compare(name: &str, text: &[u8]) {
    let answer = proved(text);
    assert_eq!(answer, plain(text), "{name}");
    let rounds = 1 + 20_000 / (text.len() + 1000);
    let (mut ours, mut theirs, mut ratios) = (Vec::new(), Vec::new(), Vec::new());
    for _ in 0..RUNS {
        let (a, b) = (time(proved, text, rounds), time(plain, text, rounds));
        ours.push(a);
        theirs.push(b);
        ratios.push(a / b);
    }
    let told = if answer >> 32 == 0 {
        format!("{} rows, {} letters", answer >> 16, answer & 65_535)
    } else {
        format!("refused {} {} {}", answer >> 32, (answer >> 16) & 65_535, answer & 65_535)
    };
    println!(
        "{name}: {} bytes, {told}, proved {:.2} us, second {:.2} us, ratio {:.2}",
        text.len(),
        median(ours) * 1e6,
        median(theirs) * 1e6,
        median(ratios)
    );
}

const SAMPLE: &[u8] = b"input SCAN;\ninput CUT;\nline -> SCAN @ (CUT || !CUT, CUT) || !SCAN;\nmonitor line;\n";

const SMALLEST: &[u8] = b"input a;p->a;monitor p;";

/// A text of a front, parts and a back.
fn text(front: &str, parts: impl Iterator<Item = String>, back: &str) -> Vec<u8> {
    let mut text = String::from(front);
    text.extend(parts);
    text += back;
    text.into_bytes()
}

/// Eight productions, each joining the one before to itself.
fn doublings() -> Vec<u8> {
    text("input a; p0 -> a;", (1..9).map(|i| format!(" p{i} -> p{}, p{};", i - 1, i - 1)), " monitor p8;")
}

/// 125 productions that no monitor uses, over the whole length of a text.
fn unused() -> Vec<u8> {
    const BODY: &str = "(a, !a)*, a || !a, ((a || !a), a @ (a, !a)), !a, a, a, a, a || !a, a, !a, !a, a, a, (a || !a, a), a, a, !a, a, a";
    let mut text = text("input a;\nlast -> a;\n", (0..125).map(|i| format!("p{i:03} -> {BODY};\n")), "monitor last;\n");
    text.resize(16_384, b' ');
    text
}

/// 256 letters in a chain, each test a field of eight wires.
fn fields() -> Vec<u8> {
    let letters = (1..256).map(|i| format!(",\n    WIDE_FIELD_NAME == 000000000000000000000000000000{i:03}"));
    text("input WIDE_FIELD_NAME[7:0];\nchain -> WIDE_FIELD_NAME == 0", letters, ";\nmonitor chain;\n")
}

/// A star over each of 256 letters but the last: as many rows as such a chain has.
fn starred() -> Vec<u8> {
    text("input F[7:0];\nchain -> ", (0..255).map(|i| format!("(F == {i})*, ")), "F == 255;\nmonitor chain;\n")
}

fn main() {
    compare("smallest", SMALLEST);
    compare("sample", SAMPLE);
    compare("AHB slave", include_bytes!("../../../cases/ahb_slave/rules.txt"));
    compare("doublings", &doublings());
    compare("unused productions", &unused());
    compare("fields", &fields());
    compare("starred letters", &starred());
}

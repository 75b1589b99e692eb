//! The lexer's speed as a ratio to plain Rust, in one run, on texts of 16,384 bytes.
//! Both sides read every token of a text and fold kind, value and places into one number, which must agree.

use std::hint::black_box;
use std::time::Instant;

mod plain;

extern "C" {
    fn lexer_bench_checksum(text: *const u8, len: usize) -> u64;
}

fn proved(text: &[u8]) -> u64 {
    unsafe { lexer_bench_checksum(text.as_ptr(), text.len()) }
}

const SIZE: usize = 16_384;
const RUNS: usize = 401;
const ROUNDS: usize = 20;

/// `part` again and again, and spaces where no whole one fits any more.
fn filled(part: &[u8]) -> Vec<u8> {
    let mut text = Vec::new();
    while text.len() + part.len() <= SIZE {
        text.extend_from_slice(part);
    }
    text.resize(SIZE, b' ');
    text
}

const RULES: &[u8] = b"input HSEL;\ninput HTRANS[1:0];\ninput HADDR[31:0];\ninternal last[7:0] = 0;\n\
define NONSEQ = HTRANS == 2;\ndefine BUSY = HSEL & HTRANS == 1;\n\
read -> NONSEQ {last <- HADDR;}, (HSEL || !HSEL & HTRANS[0])*, HADDR == last;\n\
line -> read @ (HSEL, !HSEL) || BUSY;\nmonitor line, read;\n";

const LONG: &[u8] = b"a_name_of_16byte\t \r\n  00000000000000000000000018446744073709551615      \
Sixteen_bytes_ab               18446744073709551615 0123456789  another_name_16 \n\n\n\n\n";

fn median(mut times: Vec<f64>) -> f64 {
    times.sort_by(f64::total_cmp);
    times[times.len() / 2]
}

fn time(read: fn(&[u8]) -> u64, text: &[u8]) -> f64 {
    let start = Instant::now();
    for _ in 0..ROUNDS {
        black_box(read(black_box(text)));
    }
    start.elapsed().as_secs_f64() / ROUNDS as f64
}

fn compare(name: &str, text: &[u8]) {
    assert_eq!(proved(text), plain::checksum(text));
    let (mut ours, mut theirs, mut ratios) = (Vec::new(), Vec::new(), Vec::new());
    for _ in 0..RUNS {
        let (a, b) = (time(proved, text), time(plain::checksum, text));
        ours.push(a);
        theirs.push(b);
        ratios.push(a / b);
    }
    println!(
        "{name}: {} bytes, {} tokens, proved {:.1} us, plain Rust {:.1} us, ratio {:.2} (medians of {RUNS} runs)",
        text.len(),
        plain::count(text),
        median(ours) * 1e6,
        median(theirs) * 1e6,
        median(ratios)
    );
}

/// Random texts of bytes that matter to the lexer: both sides must agree on each.
fn agree() {
    const BYTES: &[u8] = b" \t\n\r09aZ_;,@*&!()[]{}:==||-><-.\x00\xff#";
    let mut seed: u64 = 1;
    let mut next = || {
        seed ^= seed << 13;
        seed ^= seed >> 7;
        seed ^= seed << 17;
        seed
    };
    for _ in 0..200_000 {
        let len = (next() % 48) as usize;
        let text: Vec<u8> = (0..len).map(|_| BYTES[(next() % BYTES.len() as u64) as usize]).collect();
        assert_eq!(proved(&text), plain::checksum(&text), "{text:?}");
    }
    println!("200000 random texts: the two sides agree");
}

fn main() {
    agree();
    compare("rule text", &filled(RULES));
    compare("long tokens", &filled(LONG));
}

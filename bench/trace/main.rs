// Reading and writing one million words, sparse and dense: the proved library against plain Rust,
// in one run. Prints for each the best time of both and their ratio.

use std::hint::black_box;
use std::time::Instant;

extern "C" {
    fn bench_read_trace(records: *const u8, length: usize, words: *mut u64, count: usize) -> usize;
    fn bench_write_trace(words: *const u64, count: usize, records: *mut u8, length: usize) -> usize;
}

fn proved_read(records: &[u8], words: &mut [u64]) -> usize {
    unsafe { bench_read_trace(records.as_ptr(), records.len(), words.as_mut_ptr(), words.len()) }
}

fn proved_write(words: &[u64], records: &mut [u8]) -> usize {
    unsafe { bench_write_trace(words.as_ptr(), words.len(), records.as_mut_ptr(), records.len()) }
}

mod plain {
    fn bit(i: usize, map: u8) -> u8 {
        (map >> i) % 2
    }

    fn byte(i: usize, word: u64) -> u8 {
        (word >> (8 * i)) as u8
    }

    enum Record {
        Word(u64, usize),
        End,
        Refused,
    }

    fn read_record(rest: &[u8], before: u64) -> Record {
        if rest.is_empty() {
            return Record::End;
        }
        let map = rest[0];
        let given = &rest[1..];
        let follow = map.count_ones() as usize;
        if given.len() < follow {
            return Record::Refused;
        }
        let mut word = 0u64;
        let mut at = 0;
        for i in 0..8 {
            let old = byte(i, before);
            let mut new = old;
            if bit(i, map) == 1 {
                new = given[at];
                at += 1;
                if new == old {
                    return Record::Refused;
                }
            }
            word += (new as u64) << (8 * i);
        }
        Record::Word(word, 1 + follow)
    }

    fn changes(before: u64, word: u64) -> u8 {
        let mut map = 0;
        for i in 0..8 {
            if byte(i, before) != byte(i, word) {
                map += 1 << i;
            }
        }
        map
    }

    fn put(map: u8, word: u64, out: &mut [u8]) {
        out[0] = map;
        let mut at = 1;
        for i in 0..8 {
            if bit(i, map) == 1 {
                out[at] = byte(i, word);
                at += 1;
            }
        }
    }

    fn count_words(records: &[u8]) -> Option<usize> {
        let (mut at, mut before, mut n) = (0, 0, 0);
        loop {
            match read_record(&records[at..], before) {
                Record::Word(word, length) => {
                    at += length;
                    before = word;
                    n += 1;
                }
                Record::End => return Some(n),
                Record::Refused => return None,
            }
        }
    }

    #[inline(never)]
    pub fn read(records: &[u8], words: &mut [u64]) -> usize {
        let Some(n) = count_words(records) else {
            return 0;
        };
        if words.len() < n {
            return 0;
        }
        let (mut at, mut before, mut i) = (0, 0, 0);
        while i < n {
            let Record::Word(word, length) = read_record(&records[at..], before) else {
                return 0;
            };
            words[i] = word;
            before = word;
            at += length;
            i += 1;
        }
        n
    }

    #[inline(never)]
    pub fn write(words: &[u64], records: &mut [u8]) -> usize {
        let mut length = 0;
        let mut before = 0;
        for &word in words {
            length += 1 + changes(before, word).count_ones() as usize;
            before = word;
        }
        if records.len() < length {
            return 0;
        }
        let mut at = 0;
        before = 0;
        for &word in words {
            let map = changes(before, word);
            put(map, word, &mut records[at..]);
            at += 1 + map.count_ones() as usize;
            before = word;
        }
        length
    }
}

const MANY: usize = 1_000_000;
const ROUNDS: usize = 15;

fn next(state: &mut u64) -> u64 {
    *state ^= *state << 13;
    *state ^= *state >> 7;
    *state ^= *state << 17;
    *state
}

// One byte of eight changes at most ticks.
fn sparse() -> Vec<u64> {
    let mut state = 1;
    let mut word = 0;
    (0..MANY)
        .map(|_| {
            let r = next(&mut state);
            word ^= (r & 0xff) << (8 * (r >> 61));
            word
        })
        .collect()
}

// Nearly all bytes change.
fn dense() -> Vec<u64> {
    let mut state = 2;
    (0..MANY).map(|_| next(&mut state)).collect()
}

// The best time of each, the two taking turns.
fn race(mut proved: impl FnMut() -> usize, mut plain: impl FnMut() -> usize) -> (f64, f64) {
    let (mut a, mut b) = (f64::MAX, f64::MAX);
    for _ in 0..ROUNDS {
        let start = Instant::now();
        black_box(proved());
        a = a.min(start.elapsed().as_secs_f64());
        let start = Instant::now();
        black_box(plain());
        b = b.min(start.elapsed().as_secs_f64());
    }
    (a, b)
}

fn report(what: &str, times: (f64, f64)) {
    let per_word = 1e9 / MANY as f64;
    println!(
        "{what:13} proved {:6.2} ns a word, plain {:6.2} ns a word, ratio {:.2}",
        times.0 * per_word,
        times.1 * per_word,
        times.0 / times.1
    );
}

fn main() {
    for (name, words) in [("sparse", sparse()), ("dense", dense())] {
        let mut ours = vec![0u8; 9 * MANY];
        let mut theirs = vec![0u8; 9 * MANY];
        let mut back = vec![0u64; MANY];
        let mut again = vec![0u64; MANY];
        let length = proved_write(&words, &mut ours);
        assert_eq!(length, plain::write(&words, &mut theirs));
        assert_eq!(ours, theirs);
        assert_eq!(proved_read(&ours[..length], &mut back), MANY);
        assert_eq!(plain::read(&ours[..length], &mut again), MANY);
        assert!(back == words && again == words);
        report(
            &format!("write {name}"),
            race(
                || proved_write(black_box(&words), black_box(&mut ours)),
                || plain::write(black_box(&words), black_box(&mut theirs)),
            ),
        );
        let (records, also) = (&ours[..length], &theirs[..length]);
        report(
            &format!("read {name}"),
            race(
                || proved_read(black_box(records), black_box(&mut back)),
                || plain::read(black_box(also), black_box(&mut again)),
            ),
        );
    }
}

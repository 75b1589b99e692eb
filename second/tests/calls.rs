//! Looks and takes: what a look leaves alone, when either is refused, and how
//! calls and their answers are written.

mod common;

use common::{foot, Numbers};
use second::{answer_calls, Answer, Program, Watch};

/// The wires of the texts below: a is bit 0, b bit 1, D bits 2 and 3.
const WIRES: &str = "input a; input b; input D[1:0]; ";

/// How many words there are with these wires.
const WORDS: u64 = 16;

/// A thread, stores, words before, all of them together, stars, and limits.
const BODIES: [&str; 6] = [
    "p -> a @ (b || !b, b) || !a; monitor p;",
    "internal h[1:0] = 1; internal s = 0; p -> a {h <- D;} || !a & D == h; \
     q -> b {s <- 1;} || !b & s == 1 {s <- 0; h <- 3;}; monitor p, q;",
    "p -> a || !a & D == past(D); q -> D[1] & b == past(b) || !D[1]; monitor p, q;",
    "internal h[1:0] = 0; p -> a {h <- D;} @ (D == past(D), D == h) || !a; \
     q -> !D[0] || D[0] & b == past(b) {h <- 1;}; monitor p, q;",
    "p -> (a & !b)*, b, ((D == 0)* || (D == 1)*), D == 2 & !b; monitor p, p;",
    "x -> a; y -> !D[0]; p -> x @ (b || !b, y) || !a; q -> y || D[0]; \
     limit x to 3 in 8; limit y to 2 in 4; monitor p, q;",
];

/// Ok as long as a stands.
const ONE: &str = "input a; p -> a; monitor p;";

fn open(text: &str) -> Program {
    second::open(text.as_bytes()).unwrap_or_else(|refusal| panic!("{refusal}: {text}"))
}

/// All that a watch shows of itself without a look.
#[derive(Debug, PartialEq)]
struct Shown {
    ticks: u32,
    word_before: u64,
    stores: Vec<u64>,
    totals: Vec<Vec<u32>>,
    widest: usize,
}

fn shown(watch: &Watch) -> Shown {
    Shown {
        ticks: watch.ticks(),
        word_before: watch.word_before(),
        stores: watch.stores().to_vec(),
        totals: watch.totals().to_vec(),
        widest: watch.widest(),
    }
}

/// The answers of looks at all words and a stray one.
fn looks(watch: &Watch) -> Vec<Answer> {
    (0..=WORDS).map(|word| watch.look(word)).collect()
}

/// A refusal as a sheet prints it: its number and its tick.
fn refused(answer: Answer) -> String {
    match answer {
        Answer::Refused(refusal) => refusal.to_string(),
        other => panic!("{other:?} is no refusal"),
    }
}

/// A word to take after these looks: mostly one that is ok, if there is one.
fn chosen(looks: &[Answer], numbers: &mut Numbers) -> u64 {
    let is_ok = |word: &u64| looks[*word as usize] == Answer::Ok;
    let ok: Vec<u64> = (0..WORDS).filter(is_ok).collect();
    if ok.is_empty() || numbers.below(24) == 0 {
        numbers.below(1 + WORDS as usize) as u64
    } else {
        ok[numbers.below(ok.len())]
    }
}

/// Puts each of the texts above to `walk` a hundred times, with other numbers.
fn on_each_text(mut walk: impl FnMut(&Program, &mut Numbers)) {
    for body in BODIES {
        let program = open(&format!("{WIRES}{body}"));
        for seed in 0..100 {
            walk(&program, &mut Numbers(seed));
        }
    }
}

// What a look leaves alone.

#[test]
fn takes_answer_alike_with_and_without_looks_among_them() {
    let (mut ok, mut bad) = (0, 0);
    on_each_text(|program, numbers| {
        let mut plain = Watch::new(program);
        let mut looked = Watch::new(program);
        for _ in 0..30 {
            let word = chosen(&looks(&looked), numbers);
            let taken = plain.take(word);
            assert_eq!(looked.take(word), taken);
            assert_eq!(shown(&looked), shown(&plain));
            ok += usize::from(taken.answer == Answer::Ok);
            bad += usize::from(matches!(taken.answer, Answer::Bad(_)));
        }
        assert_eq!(looks(&looked), looks(&plain));
    });
    assert!(ok > 5_000 && bad > 200, "{ok} ok, {bad} bad");
}

#[test]
fn a_look_leaves_all_that_can_be_seen() {
    on_each_text(|program, numbers| {
        let mut watch = Watch::new(program);
        for _ in 0..10 {
            let before = (shown(&watch), looks(&watch));
            for word in 0..=WORDS {
                watch.look(word);
                assert_eq!((shown(&watch), looks(&watch)), before);
            }
            watch.take(chosen(&before.1, numbers));
        }
    });
}

#[test]
fn a_look_and_then_a_take_agree() {
    on_each_text(|program, numbers| {
        let mut watch = Watch::new(program);
        for _ in 0..30 {
            for word in 0..=WORDS {
                let answer = watch.look(word);
                assert_eq!(watch.clone().take(word).answer, answer);
            }
            watch.take(chosen(&looks(&watch), numbers));
        }
    });
}

#[test]
fn a_look_writes_no_store() {
    let program =
        open("input F[3:0]; internal s[3:0] = 7; p -> F[0] {s <- F;} || !F[0]; monitor p;");
    let mut watch = Watch::new(&program);
    assert_eq!(watch.look(3), Answer::Ok);
    assert_eq!(watch.stores(), [7]);
    assert_eq!(watch.take(5).answer, Answer::Ok);
    assert_eq!(watch.look(9), Answer::Ok);
    assert_eq!(watch.stores(), [5]);
}

#[test]
fn a_look_is_no_word_before() {
    let program = open("input a; input F[3:0]; p -> a || !a & F == past(F); monitor p;");
    let mut watch = Watch::new(&program);
    assert_eq!(watch.look(4 << 1 | 1), Answer::Ok);
    assert_eq!(watch.look(4 << 1), Answer::Bad(0));
    assert_eq!(watch.take(5 << 1 | 1).answer, Answer::Ok);
    assert_eq!(watch.look(6 << 1 | 1), Answer::Ok);
    assert_eq!(watch.word_before(), 5 << 1 | 1);
    assert_eq!(watch.look(6 << 1), Answer::Bad(0));
    assert_eq!(watch.take(5 << 1).answer, Answer::Ok);
}

#[test]
fn a_look_starts_no_thread() {
    let program = open("input a; input b; p -> a @ b || !a; monitor p;");
    let mut watch = Watch::new(&program);
    assert_eq!(watch.look(1), Answer::Ok);
    assert_eq!(watch.take(0).answer, Answer::Ok);
    assert_eq!(watch.take(0).answer, Answer::Ok);
    assert_eq!(watch.take(1).answer, Answer::Ok);
    // Nor does it end one.
    assert_eq!(watch.look(2), Answer::Ok);
    assert_eq!(watch.take(0).answer, Answer::Bad(0));
}

#[test]
fn a_bad_look_stops_nothing() {
    let program = open(ONE);
    let mut watch = Watch::new(&program);
    assert_eq!(watch.look(0), Answer::Bad(0));
    assert_eq!(watch.look(0), Answer::Bad(0));
    assert_eq!(watch.take(1).answer, Answer::Ok);
    assert_eq!(watch.look(0), Answer::Bad(0));
    assert_eq!(watch.take(1).answer, Answer::Ok);
    assert_eq!(watch.ticks(), 2);
    assert_eq!(watch.take(0).answer, Answer::Bad(0));
}

#[test]
fn a_bad_look_names_the_lowest_monitor() {
    let program = open("input a; input b; p -> a; q -> b; monitor p, q, p;");
    let watch = Watch::new(&program);
    assert_eq!(watch.look(3), Answer::Ok);
    assert_eq!(watch.look(1), Answer::Bad(1));
    assert_eq!(watch.look(2), Answer::Bad(0));
    assert_eq!(watch.look(0), Answer::Bad(0));
}

// When a look is refused.

#[test]
fn a_stray_look_is_refused_and_changes_nothing() {
    let program = open(ONE);
    let mut watch = Watch::new(&program);
    for tick in 0..3 {
        let stray = format!("refused 15 {tick}");
        assert_eq!(refused(watch.look(3)), stray);
        assert_eq!(refused(watch.look(1 << 63)), stray);
        assert_eq!(refused(watch.take(3).answer), stray);
        assert_eq!(watch.take(1).answer, Answer::Ok);
    }
}

#[test]
fn a_look_at_a_stopped_watch_is_refused() {
    let program = open(ONE);
    let mut watch = Watch::new(&program);
    assert_eq!(watch.take(1).answer, Answer::Ok);
    assert_eq!(watch.take(0).answer, Answer::Bad(0));
    // A word that would be ok, a bad and a stray one.
    for word in [1, 0, 2] {
        assert_eq!(refused(watch.look(word)), "refused 16 1");
        assert_eq!(refused(watch.take(word).answer), "refused 16 1");
    }
}

#[test]
fn a_look_at_a_full_watch_is_refused_and_looks_do_not_fill_it() {
    let program = open(ONE);
    let mut watch = Watch::new(&program);
    for tick in 0..1_000_000 {
        assert_eq!(watch.look(1), Answer::Ok, "tick {tick}");
        assert_eq!(watch.look(0), Answer::Bad(0), "tick {tick}");
        assert_eq!(watch.take(1).answer, Answer::Ok, "tick {tick}");
    }
    for word in [1, 0, 2] {
        assert_eq!(refused(watch.look(word)), "refused 17 1000000");
        assert_eq!(refused(watch.take(word).answer), "refused 17 1000000");
    }
}

#[test]
fn looks_have_no_limit() {
    let program = open(ONE);
    let mut watch = Watch::new(&program);
    for _ in 0..1_000_001 {
        assert_eq!(watch.look(1), Answer::Ok);
    }
    assert_eq!(watch.ticks(), 0);
    assert_eq!(watch.take(1).answer, Answer::Ok);
}

// Calls and their answers as bytes.

/// The bytes of calls, each a letter and a word.
fn bytes(calls: &[(u8, u64)]) -> Vec<u8> {
    let mut bytes = Vec::new();
    for (letter, word) in calls {
        bytes.push(*letter);
        bytes.extend(word.to_le_bytes());
    }
    bytes
}

/// The printed answer to calls that can be read.
fn printed(text: &str, calls: &[(u8, u64)]) -> String {
    let answer = answer_calls(text.as_bytes(), &bytes(calls)).expect("the calls are whole");
    String::from_utf8(answer).expect("an answer is plain text")
}

#[test]
fn each_call_has_a_line() {
    let text = "input a; input b; p -> a; q -> b || !b & a; monitor p, q, q;";
    let calls = [
        (b'L', 1),
        (b'L', 2),
        (b'L', 4),
        (b'T', 4),
        (b'T', 3),
        (b'T', 0),
        (b'L', 3),
        (b'T', 4),
    ];
    let expected = "rows 7 letters 5\n\
                    look ok\n\
                    look bad 0\n\
                    look refused 15\n\
                    take refused 15 touched 0\n\
                    take ok touched 7\n\
                    take bad 0 touched 12\n\
                    look refused 16\n\
                    take refused 16 touched 0\n\
                    met 0 0 1\n\
                    met 1 0 1\n\
                    met 1 1 0\n\
                    met 2 0 1\n\
                    met 2 1 0\n\
                    total 3\n";
    assert_eq!(printed(text, &calls), expected);
}

#[test]
fn monitors_are_printed_with_their_number() {
    let many = "p, ".repeat(31);
    let text = format!("input a; p -> a || !a; q -> a; monitor {many}q;");
    let mut totals: Vec<&[u32]> = vec![&[0, 0]; 31];
    totals.push(&[0]);
    let expected = format!(
        "rows 94 letters 63\nlook bad 31\ntake bad 31 touched 94\n{}",
        foot(&totals, 0)
    );
    assert_eq!(printed(&text, &[(b'L', 0), (b'T', 0)]), expected);
}

#[test]
fn the_lowest_byte_of_a_word_comes_first() {
    let text = b"input F[63:0]; p -> F == 578437695752307201; monitor p;";
    let answer = answer_calls(
        text,
        b"L\x01\x02\x03\x04\x05\x06\x07\x08T\x08\x07\x06\x05\x04\x03\x02\x01",
    );
    let expected = b"rows 1 letters 1\nlook ok\ntake bad 0 touched 1\nmet 0 0 0\ntotal 0\n";
    assert_eq!(answer.unwrap(), expected);
}

#[test]
fn a_refused_text_has_its_line_alone() {
    let fork = "input a; p -> a || a; monitor p;";
    for calls in [&[][..], &[(b'L', 1), (b'T', 1)]] {
        assert_eq!(printed(fork, calls), "refused 12 0 0\n");
        assert_eq!(printed("", calls), "refused 3 0\n");
        assert_eq!(printed("monitor ?", calls), "refused 2 8\n");
    }
}

#[test]
fn no_calls_have_no_lines() {
    let expected = "rows 1 letters 1\nmet 0 0 0\ntotal 0\n";
    assert_eq!(printed(ONE, &[]), expected);
}

#[test]
fn a_full_watch_is_printed() {
    let takes = [(b'L', 1), (b'T', 1)].repeat(1_000_000);
    let calls = [takes, vec![(b'L', 1), (b'T', 2)]].concat();
    let printed = printed(ONE, &calls);
    let end = "look ok\ntake ok touched 2\nlook refused 17\ntake refused 17 touched 0\n\
               met 0 0 1000000\ntotal 1000000\n";
    assert!(printed.ends_with(end));
    assert_eq!(printed.lines().count(), 1 + calls.len() + 2);
}

#[test]
fn calls_cut_short_have_no_answer() {
    let calls = bytes(&[(b'T', 1), (b'L', 1)]);
    for cut in 0..calls.len() {
        for text in [ONE, ""] {
            let answer = answer_calls(text.as_bytes(), &calls[..cut]);
            assert_eq!(answer.is_some(), cut % 9 == 0, "cut at {cut}: {text}");
        }
    }
}

#[test]
fn calls_of_another_letter_have_no_answer() {
    for letter in (0..=255).filter(|letter| !b"LT".contains(letter)) {
        for text in [ONE, ""] {
            let alone = bytes(&[(letter, 1)]);
            assert_eq!(answer_calls(text.as_bytes(), &alone), None, "{letter}");
            let last = bytes(&[(b'T', 1), (b'L', 1), (letter, 1)]);
            assert_eq!(answer_calls(text.as_bytes(), &last), None, "{letter}");
        }
    }
}

//! Rows touched: those asked, each once, and those left, each once, whatever
//! the word of the tick and whatever comes of it.

mod common;

use common::{abc, counts};
use second::{Answer, Program, Taken, Watch};

fn open(text: &str) -> Program {
    second::open(text.as_bytes()).unwrap_or_else(|refusal| panic!("{refusal}: {text}"))
}

/// What takes of these words give.
fn takes(text: &str, words: &[u64]) -> Vec<Taken> {
    let program = open(text);
    let mut watch = Watch::new(&program);
    words.iter().map(|&word| watch.take(word)).collect()
}

/// Checks what takes of these words touch, all of them ok.
fn touched(text: &str, words: &[u64], expected: &[u32]) {
    let expected: Vec<Taken> = expected.iter().map(|&count| ok(count)).collect();
    assert_eq!(takes(text, words), expected, "{text} {words:?}");
}

/// The same with the last one bad for a monitor.
fn bad_at_last(monitor: usize, text: &str, words: &[u64], expected: &[u32]) {
    let (last, before) = expected.split_last().expect("there is a take");
    let mut expected: Vec<Taken> = before.iter().map(|&count| ok(count)).collect();
    expected.push(bad(monitor, *last));
    assert_eq!(takes(text, words), expected, "{text} {words:?}");
}

fn ok(touched: u32) -> Taken {
    let answer = Answer::Ok;
    Taken { answer, touched }
}

fn bad(monitor: usize, touched: u32) -> Taken {
    let answer = Answer::Bad(monitor);
    Taken { answer, touched }
}

/// Checks that a take is refused with this number and touches nothing.
fn refused(number: u8, taken: Taken) {
    assert!(matches!(taken.answer, Answer::Refused(r) if r.number() == number));
    assert_eq!(taken.touched, 0);
}

// What is asked and left.

#[test]
fn a_letter_met_is_left_and_the_monitor_asked_again() {
    // Asked: a. Then left, as the monitor ended with it, and asked again.
    touched(&abc("a"), &[1, 1, 1], &[1, 2, 2]);
    // Asked: `,` a. Left: a, asked: b. Left: b `,`, asked: `,` a.
    touched(&abc("a, b"), &[1, 2, 1, 2, 1], &[2, 2, 4, 2, 4]);
}

#[test]
fn at_tick_0_only_parts_of_no_ticks_are_left() {
    // Asked: `,` `*` a b, left: `*`. After a, left: a `*`, asked: a, as its
    // star may go round, and b. After b, left: b `,`, and all as at tick 0.
    touched(&abc("a*, b & !a"), &[1, 1, 2, 2], &[5, 4, 4, 7]);
}

#[test]
fn a_part_of_no_ticks_can_hold_others() {
    // `(a*, b*), c`: all 7 rows are asked, left are both stars and the `,`
    // between them. After a, left: a and those three, asked: a `*` b c. After
    // b, left: b `*` `,`, asked: b c. After c, left: c `,`, and all as at tick
    // 0, though the word 0 meets no letter.
    let text = abc("(a*, b & !a*), c & !a & !b");
    bad_at_last(0, &text, &[1, 2, 4, 0], &[10, 8, 5, 12]);
    // `a* || b*` is left by taking none of a and b, and so asks c at once.
    let text = abc("(a* || b & !a*), c & !a & !b");
    // After a, left: a `*` `||`, asked: a c.
    touched(&text, &[1, 1, 4], &[10, 5, 5]);
    // A choice of which one side alone can take no tick.
    let text = abc("(a || b & !a*), c & !a & !b");
    // Left: `*` `||`, asked: `,` `||` a `*` b c. After a, left: a `||`,
    // asked: c. After b, left: b `*` `||`, asked: b c.
    touched(&text, &[1, 4, 2], &[8, 3, 10]);
    touched(&text, &[2, 4], &[8, 5]);
}

#[test]
fn a_further_round_asks_the_body_and_not_the_star() {
    // `(a*, b)*, c`. Asked: all 7 rows, left: both stars. After b, left: b `,`
    // and the outer star, asked: `,` `*` a b and c; of these the inner star is
    // left at once. After a, left: a `*`, asked: a b. After c, left: c `,`.
    let text = abc("(a*, b & !a)*, c & !a & !b");
    touched(&text, &[2, 1, 2, 4, 4], &[9, 9, 4, 9, 11]);
}

#[test]
fn a_row_reached_in_two_ways_counts_once() {
    // After a, asked: `||`, both stars, b c and the last letter; left: a, both
    // stars, and with either of them the `||` and the inner `,`.
    let text = abc("(a, ((b & !c)* || (c & !b)*)), !b & !c");
    touched(&text, &[1, 2, 0, 1], &[3, 11, 6, 5]);
    touched(&text, &[1, 4, 4, 0, 1], &[3, 11, 6, 6, 5]);
}

#[test]
fn copies_have_rows_of_their_own() {
    let text = "input a; input b; t -> a, b; p -> t, t; monitor p;";
    // After the first b, left: b and its `,`, asked: the other `,` and a. At
    // the end, left: b, its `,` and the one between both.
    touched(text, &[1, 2, 1, 2, 1], &[3, 2, 4, 2, 6]);
}

// Threads.

#[test]
fn a_pipeline_is_left_with_its_left_operand() {
    // Asked: `||` `@` a !a. After a, left: a `@` `||`, asked: these four and
    // the thread b. After b and !a, left: b !a `||`. After !a, left: !a `||`.
    touched(&abc("a @ b || !a"), &[1, 2, 0, 0], &[4, 8, 7, 6]);
}

#[test]
fn a_thread_that_is_occupied_is_asked_all_the_same() {
    // Asked: `@` a. After a, left: a `@`, asked: `@` a and the thread's `,` b.
    // After a and b, left: a `@` b, asked: these four and c. No branch fits
    // the third word, as two starts would require a letter.
    let text = abc("a @ (b, c)");
    for word in [7, 0, 4] {
        bad_at_last(0, &text, &[1, 3, word], &[2, 6, 8]);
    }
}

#[test]
fn a_row_that_two_starts_ask_counts_once() {
    // After a, left: a `@` `||`, asked: `||` `@` a !a and the thread's `,` `*`
    // b c; this `*` is left at once. After a and b all 8 rows are asked again,
    // b and c by the older start too; left: a `@` `||` b, and `*` by both.
    let text = abc("a @ (b & !c*, c) || !a");
    bad_at_last(0, &text, &[1, 3, 2], &[4, 12, 13]);
    // The older start alone, after !a and b, left: !a `||` b `*`, asked: `||`
    // `@` a !a b c. After !a and c, left: !a `||` c `,`.
    touched(&text, &[1, 2, 4, 0], &[4, 12, 10, 8]);
}

#[test]
fn a_thread_is_left_once_after_its_last_letter() {
    // After b, left: b, the inner `@` and with it the outer thread, asked: the
    // inner thread's `,` c. After c, left: c, asked: d. After d, left: d `,`.
    // Each time with `||` `@` a !a asked and, but for the first, !a `||` left.
    let declared = "input a; input b; input c; input d; ";
    let text = format!("{declared}p -> a @ (b @ (c, d)) || !a; monitor p;");
    touched(&text, &[1, 2, 4, 8, 0, 0], &[4, 9, 10, 8, 8, 6]);
}

#[test]
fn a_thread_is_asked_where_its_left_operand_can_have_ended() {
    // Asked: `,` `@` `,` a. After a, left: a, the star of no rounds, the inner
    // `,` and the `@`, asked: `*` b, the thread c and the last letter. After b,
    // left: b `*` `,` `@`, asked: b c !b. After c and !b, left: c !b and the
    // outer `,`.
    let text = abc("(a, b*) @ c, !b");
    touched(&text, &[1, 2, 2, 4, 1], &[4, 8, 7, 7, 7]);
}

// What does not matter.

#[test]
fn the_word_does_not_matter() {
    let program = open(&abc("a @ (b || !b, b) || !a"));
    let mut watch = Watch::new(&program);
    for word in [1, 0, 2, 0, 1, 2, 1, 0, 2] {
        let counts = (0..8).map(|other| watch.clone().take(other).touched);
        let counts: Vec<u32> = counts.collect();
        let taken = watch.take(word);
        assert_eq!(taken.answer, Answer::Ok);
        assert_eq!(counts, [taken.touched; 8]);
    }
}

#[test]
fn stores_and_the_word_before_do_not_matter() {
    // Asked: `||` a `,` !a, though the store forbids the former a.
    let text = "input a; internal s = 0; p -> a & s == 1 || !a, a; monitor p;";
    bad_at_last(0, text, &[1], &[4]);
    touched(text, &[0, 1, 0], &[4, 2, 7]);
    // Asked: `||` and both letters, though only one can be met; then also left:
    // `||` and the one that was.
    let text = "input a; input b; p -> a & b == past(b) || !a; monitor p;";
    touched(text, &[2, 3, 0], &[3, 5, 5]);
    bad_at_last(0, text, &[2, 1], &[3, 5]);
}

#[test]
fn looks_do_not_matter() {
    let program = open(&abc("a @ b || !a"));
    let mut watch = Watch::new(&program);
    for (word, count) in [(1, 4), (2, 8), (0, 7), (0, 6)] {
        for other in 0..=8 {
            watch.look(other);
        }
        assert_eq!(watch.take(word), ok(count));
    }
}

// Monitors, and takes that are not ok.

#[test]
fn all_monitors_count() {
    let declared = "input a; input b; input c; p -> a; q -> b, c; ";
    let text = format!("{declared}monitor p, q;");
    // p: 1, then 2. q: 2, then 2, then 4.
    touched(&text, &[3, 5, 3], &[3, 4, 6]);
    // Those behind the bad one, and those before it.
    bad_at_last(0, &text, &[3, 4], &[3, 4]);
    bad_at_last(1, &text, &[3, 1], &[3, 4]);
    bad_at_last(0, &text, &[3, 5, 0], &[3, 4, 6]);
    bad_at_last(0, &text, &[0], &[3]);
    // One that is listed twice counts twice.
    let text = format!("{declared}monitor q, p, q;");
    touched(&text, &[3, 5, 3], &[5, 6, 10]);
    bad_at_last(1, &text, &[3, 5, 2], &[5, 6, 10]);
}

#[test]
fn a_refused_take_touches_nothing() {
    let program = open("input a; p -> a; monitor p;");
    let mut watch = Watch::new(&program);
    refused(15, watch.take(2));
    assert_eq!(watch.take(1), ok(1));
    refused(15, watch.take(3));
    assert_eq!(watch.take(1), ok(2));
    assert_eq!(watch.take(0), bad(0, 2));
    for word in [1, 0, 2] {
        refused(16, watch.take(word));
    }
}

#[test]
fn a_take_of_a_full_watch_touches_nothing() {
    let program = open("input a; p -> a; monitor p;");
    let mut watch = Watch::new(&program);
    for tick in 0..1_000_000 {
        assert_eq!(watch.take(1), ok(1 + u32::from(tick > 0)));
    }
    refused(17, watch.take(1));
}

// The largest tables.

#[test]
fn as_many_stars_as_there_can_be() {
    let stars: String = (0..255).map(|value| format!("D == {value}*, ")).collect();
    let text = format!("input D[7:0]; p -> {stars}D == 255; monitor p;");
    assert_eq!(counts(&text), (256 + 255 + 255, 256));
    // Asked: all, left: the stars, and each `,` but the last.
    let begin = 766 + 255 + 254;
    // After 0, left: it and what was left before. Asked: it, all other letters,
    // and all stars but its own.
    let after_0 = 1 + 255 + 254 + 256 + 254;
    // After 253, left: it, its star, the next star and the `,` before either;
    // asked: it, the next star and the two letters behind it.
    let after_253 = 5 + 4;
    // After 255, left: it and the last `,`.
    let after_255 = 2 + begin;
    let words = [0, 253, 255, 255];
    touched(&text, &words, &[begin, after_0, after_253, after_255]);
}

#[test]
fn as_many_threads_as_one_letter_starts() {
    let mut text = String::from("input a; input b; p0 -> a; ");
    for number in 1..=85 {
        text += &format!("p{number} -> p{} @ (b || !b, b); ", number - 1);
    }
    text += "monitor p85;";
    assert_eq!(counts(&text), (1 + 85 * 6, 256));
    // Asked: a and each `@`. After a, left: the same; asked: also `||` b `,` !b
    // of each thread. After !b of each thread, left: it too; asked: all rows.
    let (begin, thread) = (86, 4 * 85);
    let expected = [begin, 2 * begin + thread, begin + 85 + 511];
    bad_at_last(0, &text, &[1, 1, 3], &expected);
}

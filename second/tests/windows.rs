//! Limits: how `limit P to n in w;` is read, which letters count for it, and
//! which ticks are beyond it.

mod common;

use common::{
    abc, counts, cut_foot, last_line, refused_at_letter, refused_at_mark, sheet, trace, Numbers,
};
use second::{answer_calls, Answer, Program, Watch};

/// The number reported for the first limit.
const FIRST: usize = 32;

/// What stands above the marked limits: productions of one letter and others.
const DECLARED: &str = "input a; input b; input D[3:0]; internal s = 0; define k = a & b; \
    x -> a; y -> x; w -> (a); z -> ((y)); r -> a & b & s == 0 {s <- 1;}; \
    two -> a, b; star -> a*; either -> a || !a; piped -> a @ b; named -> two; ";

fn open(text: &str) -> Program {
    second::open(text.as_bytes()).unwrap_or_else(|refusal| panic!("{refusal}: {text}"))
}

/// Checks a limit with a `^` before the token at fault.
fn limit_refused(number: u8, marked: &str) {
    refused_at_mark(number, &format!("{DECLARED}{marked} monitor x;"));
}

fn limit_accepted(limit: &str) {
    assert_eq!(counts(&format!("{DECLARED}{limit} monitor x;")), (1, 1));
}

/// A text in which the letter x may be met at any tick, namely where a stands.
fn limited(limits: &str) -> String {
    format!("input a; input b; x -> a; p -> x || !a; {limits} monitor p;")
}

/// The answers to takes of these words.
fn answers(text: &str, words: &[u64]) -> Vec<Answer> {
    let program = open(text);
    let mut watch = Watch::new(&program);
    words.iter().map(|&word| watch.take(word).answer).collect()
}

/// Checks that takes of these words are all ok.
fn clean(text: &str, words: &[u64]) {
    let expected = vec![Answer::Ok; words.len()];
    assert_eq!(answers(text, words), expected, "{text}");
}

/// Checks that takes of these words are all ok but the last, which is bad with
/// this number.
fn bad_at_last(number: usize, text: &str, words: &[u64]) {
    let mut expected = vec![Answer::Ok; words.len() - 1];
    expected.push(Answer::Bad(number));
    assert_eq!(answers(text, words), expected, "{text}");
}

/// Words one after the other, so many times each.
fn rows(parts: &[(u64, usize)]) -> Vec<u64> {
    let mut words = Vec::new();
    for &(word, times) in parts {
        words.resize(words.len() + times, word);
    }
    words
}

// Reading.

#[test]
fn a_limit_stands_anywhere_among_the_declarations_below_its_production() {
    let limit = "limit x to 1 in 2;";
    for text in [
        format!("input a; x -> a; {limit} p -> x || !a; monitor p;"),
        format!("input a; x -> a; p -> x || !a; {limit} monitor p;"),
        format!("input a; x -> a; {limit} input b; define k = !a; p -> x || k; monitor p;"),
        format!("input a; x -> a; internal s = 0; {limit} p -> x || !a {{s <- 1;}}; monitor p;"),
    ] {
        assert_eq!(counts(&text), (3, 2));
        bad_at_last(FIRST, &text, &[1, 1]);
        clean(&text, &[1, 0, 1, 0, 0, 1]);
    }
    refused_at_mark(4, "input a; limit ^x to 1 in 2; x -> a; monitor x;");
    refused_at_mark(3, &format!("input a; x -> a; monitor x; ^{limit}"));
    refused_at_mark(3, &format!("input a; x -> a, ^{limit} monitor x;"));
    // There is still a monitor statement to come.
    refused_at_mark(3, &format!("input a; x -> a; {limit}^"));
}

#[test]
fn tokens_of_a_limit_are_parted_as_others_are() {
    for limit in [
        "limit x to 1 in 2;",
        "limit\tx\r\nto\n1\tin  2 ;",
        "limit x to 1in 2;",
        "limit x to 001 in 0000000000000000000000000000002;",
    ] {
        bad_at_last(FIRST, &limited(limit), &[1, 1]);
        clean(&limited(limit), &[1, 0, 1]);
    }
    limit_refused(3, "limit x ^to1 in 2;");
    limit_refused(3, "limit x to 1 ^in2;");
    limit_refused(4, "limit ^xto 1 in 2;");
}

#[test]
fn each_token_of_a_limit_has_its_place() {
    limit_refused(3, "limit^;");
    limit_refused(3, "limit x^;");
    limit_refused(3, "limit x ^1 in 2;");
    limit_refused(3, "limit x ^in 2 to 1;");
    limit_refused(3, "limit x ^= 1 in 2;");
    limit_refused(3, "limit x to^;");
    limit_refused(3, "limit x to 1^;");
    limit_refused(3, "limit x to 1 ^2;");
    limit_refused(3, "limit x to 1 ^to 2;");
    limit_refused(3, "limit x to 1 in^;");
    limit_refused(3, "limit x to 1 in 2 ^limit x to 1 in 2;");
    limit_refused(3, "limit x to 1 in 2 ^, 3;");
    limit_refused(3, "limit x^, y to 1 in 2;");
    limit_refused(3, "limit x^[0] to 1 in 2;");
    limit_refused(3, "limit ^(x) to 1 in 2;");
    limit_refused(3, "limit ^!x to 1 in 2;");
    for cut in ["limit", "limit x", "limit x to", "limit x to 1"] {
        refused_at_mark(3, &format!("{DECLARED}{cut}^"));
    }
    refused_at_mark(3, &format!("{DECLARED}limit x to 1 in 2 ^monitor x;"));
    refused_at_mark(3, &format!("{DECLARED}limit x to 1 in^"));
    refused_at_mark(3, &format!("{DECLARED}limit x to 1 in 2^"));
}

#[test]
fn its_three_words_are_no_names() {
    for word in ["limit", "to", "in"] {
        refused_at_mark(3, &format!("input ^{word};"));
        refused_at_mark(3, &format!("internal ^{word} = 0;"));
        refused_at_mark(3, &format!("input a; define ^{word} = a;"));
        refused_at_mark(3, &format!("input a; p -> a & ^{word};"));
        refused_at_mark(3, &format!("input a; p -> ^{word};"));
        refused_at_mark(3, &format!("input a; p -> !^{word};"));
        refused_at_mark(3, &format!("input a; p -> a == ^{word};"));
        refused_at_mark(3, &format!("input a; p -> a == past(^{word});"));
        refused_at_mark(3, &format!("input a; p -> a {{^{word} <- 1;}};"));
        refused_at_mark(3, &format!("input a; p -> a; monitor ^{word};"));
        limit_refused(3, &format!("limit ^{word} to 1 in 2;"));
        limit_refused(3, &format!("limit x to ^{word} in 2;"));
        limit_refused(3, &format!("limit x to 1 in ^{word};"));
    }
    // Where a production's name could stand.
    refused_at_mark(3, "input a; ^to -> a;");
    refused_at_mark(3, "input a; ^in -> a;");
    refused_at_mark(3, "input a; limit ^-> a;");
    // Words that only begin like them, or are written otherwise.
    let text = "input to_; input inn; input Limit; limits -> to_; tot -> inn; In -> Limit; \
                limit limits to 0 in 1; monitor tot, In;";
    assert_eq!(counts(text), (2, 2));
}

#[test]
fn a_ninth_limit_is_one_too_many_whatever_follows() {
    let eight = "limit x to 1 in 2; ".repeat(8);
    limit_accepted(&eight);
    assert_eq!(open(&format!("{DECLARED}{eight}monitor x;")).limits(), 8);
    for behind in [
        "limit x to 1 in 2;",
        "limit",
        "limit zz to 1 in 2;",
        "limit two to 1 in 2;",
        "limit limit",
        "limit x to 1024 in 2;",
        "limit |",
        "limit 18446744073709551616",
    ] {
        limit_refused(7, &format!("{eight}^{behind}"));
        refused_at_mark(7, &format!("{DECLARED}{eight}^{behind}"));
    }
    // Where none may stand it is misplaced, and an earlier fault comes first.
    refused_at_mark(
        3,
        &format!("{DECLARED}{eight}monitor x; ^limit x to 1 in 2;"),
    );
    limit_refused(3, &format!("{eight}q -> a ^limit x to 1 in 2;"));
    limit_refused(22, &eight.replacen("limit x", "limit ^two", 1));
}

#[test]
fn a_limit_names_a_production_above_it() {
    limit_refused(2, "limit ^abcdefghijklmnopq to 1 in 2;");
    limit_refused(2, "limit ^| to 1 in 2;");
    limit_refused(2, "limit ^18446744073709551616 to 1 in 2;");
    limit_refused(3, "limit ^7 to 1 in 2;");
    limit_refused(3, "limit ^monitor to 1 in 2;");
    limit_refused(4, "limit ^zz to 1 in 2;");
    limit_refused(4, "limit ^a to 1 in 2;");
    limit_refused(4, "limit ^D to 1 in 2;");
    limit_refused(4, "limit ^s to 1 in 2;");
    limit_refused(4, "limit ^k to 1 in 2;");
    limit_refused(4, "limit ^q to 1 in 2; q -> a;");
}

#[test]
fn a_limited_production_is_a_single_letter() {
    for name in ["x", "y", "w", "z", "r"] {
        limit_accepted(&format!("limit {name} to 1 in 2;"));
    }
    for name in ["two", "star", "either", "piped", "named"] {
        limit_refused(22, &format!("limit ^{name} to 1 in 2;"));
    }
    limit_accepted("q -> k & D == 3 & a == past(a); limit q to 1 in 2;");
    limit_accepted(&format!(
        "q -> {}x{}; limit q to 1 in 2;",
        "(".repeat(32),
        ")".repeat(32)
    ));
    limit_refused(22, "q -> x*; limit ^q to 1 in 2;");
    limit_refused(22, "q -> (x, x); limit ^q to 1 in 2;");
    // 2^100 letters of which no monitor asks for any.
    let doubled: String = (1..=100)
        .map(|number| format!("d{number} -> d{0}, d{0}; ", number - 1))
        .collect();
    limit_refused(22, &format!("d0 -> a; {doubled}limit ^d100 to 1 in 2;"));
    limit_accepted(&format!("d0 -> a; {doubled}limit d0 to 1 in 2;"));
}

#[test]
fn the_number_of_ticks_is_at_most_1_023() {
    limit_accepted("limit x to 0 in 1;");
    limit_accepted("limit x to 1023 in 1024;");
    limit_accepted("limit x to 00000000000000000000000001023 in 1024;");
    limit_refused(21, "limit x to ^1024 in 1024;");
    // Before the window is seen, or anything else behind the number.
    limit_refused(21, "limit x to ^1024 in 2000;");
    limit_refused(21, "limit x to ^1024 in 0;");
    limit_refused(21, "limit x to ^1024;");
    limit_refused(21, "limit x to ^1024 |");
    refused_at_mark(21, &format!("{DECLARED}limit x to ^1024"));
    // 2^32 and one more, and the largest number there is.
    limit_refused(21, "limit x to ^4294967296 in 2;");
    limit_refused(21, "limit x to ^4294967297 in 2;");
    limit_refused(21, "limit x to ^18446744073709551615 in 2;");
    limit_refused(2, "limit x to ^18446744073709551616 in 2;");
    limit_refused(3, "limit x to ^x in 2;");
    limit_refused(3, "limit x to ^in 2;");
}

#[test]
fn a_window_has_more_ticks_than_are_allowed_and_at_most_1_024() {
    limit_accepted("limit x to 0 in 1024;");
    limit_accepted("limit x to 7 in 8;");
    limit_refused(21, "limit x to 0 in ^0;");
    limit_refused(21, "limit x to 1 in ^0;");
    limit_refused(21, "limit x to 0 in ^000;");
    limit_refused(21, "limit x to 0 in ^1025;");
    limit_refused(21, "limit x to 1023 in ^1025;");
    limit_refused(21, "limit x to 1 in ^1;");
    limit_refused(21, "limit x to 8 in ^8;");
    limit_refused(21, "limit x to 8 in ^7;");
    limit_refused(21, "limit x to 1023 in ^1023;");
    limit_refused(21, "limit x to 1 in ^4294967298;");
    limit_refused(21, "limit x to 1 in ^18446744073709551615;");
    limit_refused(2, "limit x to 1 in ^18446744073709551616;");
    limit_refused(3, "limit x to 1 in ^x;");
    refused_at_mark(21, &format!("{DECLARED}limit x to 3 in ^2"));
}

#[test]
fn the_earliest_token_at_fault_comes_first() {
    limit_refused(22, "limit ^two to 1024 in 0;");
    limit_refused(22, "limit ^two;");
    limit_refused(4, "limit ^zz to 1024 in 0;");
    limit_refused(21, "limit x to ^1024 in 1; limit two to 1 in 2;");
    limit_refused(21, "limit x to 1 in ^1; q -> zz;");
    limit_refused(21, "limit x to 1 in ^1");
    limit_refused(4, "q -> ^zz; limit two to 1 in 2;");
    limit_refused(3, "limit x ^in 1024 to 1;");
    // Before what is judged when the grammar is kept to.
    let faulty = "input a; x -> a; no -> a & !a; two -> a, a; ";
    refused_at_mark(22, &format!("{faulty}limit ^two to 1 in 2; monitor no;"));
    refused_at_mark(21, &format!("{faulty}limit x to 1 in ^1; monitor no;"));
    refused_at_letter(9, 0, 0, &format!("{faulty}limit x to 1 in 2; monitor no;"));
}

#[test]
fn a_limit_declares_no_name() {
    let names: String = (0..126).map(|number| format!("n{number} -> a; ")).collect();
    let limits = "limit x to 1 in 2; ".repeat(8);
    let text = format!("input a; x -> a; {limits}{names}");
    assert_eq!(counts(&format!("{text}monitor x;")), (1, 1));
    refused_at_mark(7, &format!("{text}^more -> a; monitor x;"));
    // A limited name is declared once, by its production alone.
    refused_at_mark(5, "input a; x -> a; limit x to 1 in 2; ^x -> a;");
}

#[test]
fn a_production_that_no_monitor_opens_is_not_judged() {
    let text = "input a; no -> a & !a; x -> a; p -> x || !a; \
                limit no to 0 in 1; limit x to 1 in 2; monitor p;";
    assert_eq!(counts(text), (3, 2));
    clean(text, &[1, 0, 1, 0, 0]);
    // It keeps its number all the same.
    bad_at_last(33, text, &[0, 1, 1]);
    refused_at_letter(9, 1, 0, &text.replace("monitor p", "monitor p, no"));
}

#[test]
fn limits_add_neither_rows_nor_letters() {
    let plain = "input a; x -> a; y -> x; p -> y, x || !a; monitor p, y;";
    let limits = "limit x to 1 in 2; limit y to 1 in 2; monitor";
    assert_eq!(counts(plain), counts(&plain.replace("monitor", limits)));
    assert_eq!(counts(plain), (6, 4));
}

// The window.

/// Checks a limit on x: the n ticks it allows, begun `late`, and then one more
/// on the last tick of their window, and one right behind it.
fn window_ends(most: usize, window: usize, late: usize) {
    let text = limited(&format!("limit x to {most} in {window};"));
    let full = rows(&[(0, late), (1, most), (0, window - 1 - most)]);
    clean(&text, &full);
    bad_at_last(FIRST, &text, &[&full[..], &[1]].concat());
    // At the tick behind, the first of the n is no longer in the window.
    let free: &[u64] = if most == 0 { &[0, 0] } else { &[0, 1] };
    clean(&text, &[&full[..], free].concat());
    if most > 0 && window > most + 1 {
        // The second of them is, if it is not this tick itself.
        let next = [&full[..], &[0, 1, 1]].concat();
        match most {
            1 => bad_at_last(FIRST, &text, &next),
            _ => clean(&text, &next),
        }
    }
}

#[test]
fn a_window_is_this_tick_and_those_before_it() {
    for window in [1, 2, 3, 63, 64, 65, 66, 127, 128, 129, 1_022, 1_023, 1_024] {
        let counts = [0, 1, 2, window / 2, window - 1];
        for most in counts.into_iter().filter(|most| *most < window) {
            for late in [0, 1, 63, 64, window, 3 * window + 1] {
                window_ends(most, window, late);
            }
        }
    }
}

#[test]
fn one_in_two_allows_every_other_tick() {
    let text = limited("limit x to 1 in 2;");
    clean(&text, &[1, 0, 1, 0, 1, 0, 0, 1]);
    bad_at_last(FIRST, &text, &[1, 1]);
    bad_at_last(FIRST, &text, &[0, 1, 0, 1, 1]);
}

#[test]
fn none_in_any_window_allows_none() {
    for window in [1, 2, 64, 65, 1_023, 1_024] {
        let text = limited(&format!("limit x to 0 in {window};"));
        clean(&text, &rows(&[(0, 3_000)]));
        bad_at_last(FIRST, &text, &[1]);
        bad_at_last(FIRST, &text, &rows(&[(0, 3_000), (1, 1)]));
    }
}

#[test]
fn all_but_one_of_a_window_are_met_for_ever() {
    for window in [2, 64, 65, 1_023, 1_024] {
        let most = window - 1;
        let text = limited(&format!("limit x to {most} in {window};"));
        let rounds = rows(&[(1, most), (0, 1)]).repeat(5);
        clean(&text, &rounds);
        // The gap comes one tick too late.
        let late = [&rounds[..], &rows(&[(1, window)])].concat();
        bad_at_last(FIRST, &text, &late);
        // It may come early.
        let early = [&rounds[..], &rows(&[(1, most - 1), (0, 1), (1, most)])].concat();
        clean(&text, &early);
        bad_at_last(FIRST, &text, &[&early[..], &[1]].concat());
    }
}

#[test]
fn before_a_window_has_gone_by_the_ticks_there_are_count() {
    let text = limited("limit x to 2 in 1024;");
    bad_at_last(FIRST, &text, &[1, 1, 1]);
    bad_at_last(FIRST, &text, &[0, 1, 0, 1, 0, 1]);
    clean(&text, &[0, 1, 0, 1, 0, 0]);
    bad_at_last(FIRST, &text, &rows(&[(1, 2), (0, 1_021), (1, 1)]));
    clean(&text, &rows(&[(1, 2), (0, 1_022), (1, 2)]));
    bad_at_last(FIRST, &text, &rows(&[(1, 2), (0, 1_022), (1, 3)]));
}

#[test]
fn a_window_slides_and_does_not_begin_anew() {
    // Two in 2 to 5, and each of the rows 0 to 3 and 4 to 7 has two at most.
    let text = limited("limit x to 2 in 4;");
    bad_at_last(FIRST, &text, &[0, 0, 1, 1, 1]);
    bad_at_last(FIRST, &text, &[0, 0, 1, 1, 0, 1]);
    clean(&text, &[0, 0, 1, 1, 0, 0, 1, 1, 0, 0, 1]);
}

// What is counted.

#[test]
fn a_tick_counts_once_however_many_letters_it_meets() {
    // Two monitors, and one of them listed twice.
    let text =
        "input a; x -> a; p -> x || !a; q -> x, x || !a; limit x to 2 in 5; monitor p, q, p;";
    clean(text, &[1, 1, 0, 0, 0, 1, 1]);
    bad_at_last(FIRST, text, &[1, 1, 0, 0, 1]);
    // On the main line and in a thread at once.
    let text = "input a; input b; x -> a; p -> x @ x || !a; limit x to 2 in 3; monitor p;";
    clean(text, &[1, 1]);
    bad_at_last(FIRST, text, &[1, 1, 1]);
    let text = text.replace("to 2 in 3", "to 1 in 2");
    bad_at_last(FIRST, &text, &[1, 1]);
    // Two names of one limit's letters, met together.
    let text = "input a; x -> a; y -> x; limit x to 1 in 2; monitor x, y;";
    clean(text, &[1]);
    bad_at_last(FIRST, text, &[1, 1]);
}

#[test]
fn a_letter_counts_where_it_is_met_and_not_where_its_wires_stand() {
    let text = "input a; input b; x -> a; p -> x, b || !a; limit x to 1 in 2; monitor p;";
    // The word 3 meets x at 0 and b at 1.
    clean(text, &[3, 3, 3, 3, 3]);
    // A thread that is not started.
    let text = "input a; input b; x -> b; p -> a @ x || !a; limit x to 0 in 1; monitor p;";
    clean(text, &[2, 2, 1]);
    bad_at_last(FIRST, text, &[2, 1, 2]);
}

#[test]
fn a_letter_with_the_same_literals_counts_for_its_own_name_alone() {
    let text = "input a; x -> a; y -> a; p -> x, y, a || !a; limit x to 1 in 3; monitor p;";
    clean(text, &[1, 1, 1, 1, 1, 1, 1]);
    // As would x in the place of y, or at the third one.
    bad_at_last(FIRST, &text.replace("x, y, a", "x, x, a"), &[1, 1]);
    bad_at_last(FIRST, &text.replace("x, y, a", "x, y, x"), &[1, 1, 1]);
}

#[test]
fn letters_met_in_a_star_or_a_thread_count() {
    let text = "input a; input b; x -> a; p -> x*, !a; limit x to 2 in 3; monitor p;";
    clean(text, &[1, 1, 0, 1, 1, 0]);
    bad_at_last(FIRST, text, &[1, 1, 0, 1, 1, 1]);
    let text = "input a; input b; x -> b; p -> a @ (b, x) || !a; limit x to 1 in 3; monitor p;";
    // x at 2 and at 5.
    clean(text, &[1, 2, 2, 1, 2, 2]);
    bad_at_last(FIRST, &text.replace("in 3", "in 4"), &[1, 2, 2, 1, 2, 2]);
}

#[test]
fn letters_of_branches_that_do_not_fit_do_not_count() {
    // Behind a each star can be left without a round: two branches of letters
    // that are met together, and count once.
    let text = "input a; input b; input c; x -> c & !a & !b; \
                p -> (a & !b* || b & !a*), x; limit x to 1 in 2; monitor p;";
    clean(text, &[4, 1, 1, 4, 2, 4]);
    bad_at_last(FIRST, text, &[4, 4]);
    // The thread asks for b in vain: the monitor is bad, and no limit is asked.
    let text = "input a; input b; x -> a; p -> x @ b || !a; limit x to 1 in 2; monitor p;";
    bad_at_last(0, text, &[1, 1]);
    bad_at_last(FIRST, text, &[1, 3]);
}

#[test]
fn stores_and_words_before_decide_what_is_met() {
    let text = "input a; input D[1:0]; internal s = 0; \
                r -> a & s == 0 {s <- 1;}; h -> !a & D == past(D); \
                p -> r || h; limit r to 1 in 3; limit h to 1 in 2; monitor p;";
    // r at 0 writes 1, with which it is not met again.
    bad_at_last(0, text, &[1, 0, 1]);
    bad_at_last(33, text, &[1, 0, 0]);
    // Without the write it is met, and beyond its limit.
    bad_at_last(FIRST, &text.replace("s <- 1", "s <- 0"), &[1, 0, 1]);
}

#[test]
fn looks_do_not_count_and_say_what_a_take_would() {
    let program = open(&limited("limit x to 1 in 3;"));
    let mut watch = Watch::new(&program);
    for _ in 0..5 {
        assert_eq!(watch.look(1), Answer::Ok);
    }
    assert_eq!(watch.take(1).answer, Answer::Ok);
    for _ in 0..5 {
        assert_eq!(watch.look(1), Answer::Bad(FIRST));
        assert_eq!(watch.look(0), Answer::Ok);
    }
    // Looks are no ticks of the window either: two takes have to go by.
    assert_eq!(watch.take(0).answer, Answer::Ok);
    assert_eq!(watch.look(1), Answer::Bad(FIRST));
    assert_eq!(watch.take(0).answer, Answer::Ok);
    assert_eq!(watch.look(1), Answer::Ok);
    assert_eq!(watch.take(1).answer, Answer::Ok);
    assert_eq!(watch.look(1), Answer::Bad(FIRST));
    assert_eq!(watch.take(1).answer, Answer::Bad(FIRST));
}

#[test]
fn refused_takes_are_no_ticks_of_a_window() {
    let program = open(&limited("limit x to 1 in 3;"));
    let mut watch = Watch::new(&program);
    let stray = |watch: &mut Watch| {
        let answer = watch.take(5).answer;
        assert!(matches!(answer, Answer::Refused(refusal) if refusal.number() == 15));
    };
    stray(&mut watch);
    assert_eq!(watch.take(1).answer, Answer::Ok);
    stray(&mut watch);
    stray(&mut watch);
    stray(&mut watch);
    assert_eq!(watch.look(1), Answer::Bad(FIRST));
    assert_eq!(watch.take(0).answer, Answer::Ok);
    stray(&mut watch);
    assert_eq!(watch.look(1), Answer::Bad(FIRST));
    assert_eq!(watch.take(0).answer, Answer::Ok);
    assert_eq!(watch.take(1).answer, Answer::Ok);
}

// Which letters are those of a production.

/// With `q -> a; p -> q;`, the answer to the third of three ticks, a limit
/// allowing two: with copies of either name, or a written out.
fn third_tick(limited: &str, expression: &str) -> Answer {
    let text = format!(
        "input a; q -> a; p -> q; m -> {expression}; limit {limited} to 2 in 3; monitor m;"
    );
    answers(&text, &[1, 1, 1])[2]
}

#[test]
fn a_copy_of_p_is_one_of_q_but_not_the_other_way_round() {
    let bad = Answer::Bad(FIRST);
    for (expression, q, p) in [
        ("q, q, q", bad, Answer::Ok),
        ("p, p, p", bad, bad),
        ("p, q, p", bad, Answer::Ok),
        ("q, p, q", bad, Answer::Ok),
        ("a, p, p", Answer::Ok, Answer::Ok),
        ("p, p, a", Answer::Ok, Answer::Ok),
        ("a, a, a", Answer::Ok, Answer::Ok),
    ] {
        assert_eq!(third_tick("q", expression), q, "{expression}");
        assert_eq!(third_tick("p", expression), p, "{expression}");
    }
}

#[test]
fn copies_through_larger_productions_count() {
    let text = "input a; input b; x -> a; pair -> x, b; round -> pair || !a & !b; \
                m -> round, pair; limit x to 2 in 4; monitor m;";
    // x at 0, 2 and 4.
    clean(text, &[1, 2, 1, 2, 1]);
    bad_at_last(FIRST, &text.replace("in 4", "in 5"), &[1, 2, 1, 2, 1]);
    // Deep chains of names.
    let chain: String = (1..100)
        .map(|number| format!("x{number} -> (x{}); ", number - 1))
        .collect();
    for limited in ["x0", "x1", "x50", "x99"] {
        let text = format!(
            "input a; x0 -> a; {chain}m -> x99, x99; limit {limited} to 1 in 2; monitor m;"
        );
        bad_at_last(FIRST, &text, &[1, 1]);
    }
    let text = format!("input a; x0 -> a; {chain}m -> x98, x98; limit x99 to 1 in 2; monitor m;");
    clean(&text, &[1, 1, 1]);
}

#[test]
fn a_production_listed_as_a_monitor_counts() {
    let text = "input a; input b; x -> a; other -> b; limit x to 2 in 3; monitor x;";
    bad_at_last(FIRST, text, &[1, 1, 1]);
    bad_at_last(
        FIRST,
        &text.replace("monitor x", "monitor other, x"),
        &[3, 3, 3],
    );
    clean(&text.replace("monitor x", "monitor other"), &[3, 3, 3]);
    // Through another name that is listed.
    let through = "input a; x -> a; y -> x; limit x to 2 in 3; limit y to 1 in 3; monitor y;";
    bad_at_last(33, through, &[1, 1]);
    bad_at_last(FIRST, &through.replace("to 2", "to 1"), &[1, 1]);
    // Not the other way round.
    bad_at_last(
        FIRST,
        &through.replace("monitor y", "monitor x"),
        &[1, 1, 1],
    );
}

#[test]
fn copies_made_above_a_limit_count() {
    let above = "input a; x -> a; limit x to 1 in 2; m -> x, x; monitor m;";
    let below = "input a; x -> a; m -> x, x; limit x to 1 in 2; monitor m;";
    bad_at_last(FIRST, above, &[1, 1]);
    bad_at_last(FIRST, below, &[1, 1]);
}

#[test]
fn letters_of_all_monitors_count_together() {
    let text = "input a; input b; x -> a; p -> x, !a; q -> !a, x; \
                limit x to 1 in 2; monitor p, q;";
    // p has x at 0; then q would have it at 1, if p did not ask for !a.
    bad_at_last(1, text, &[1]);
    let text = "input a; input b; x -> a; p -> x, b; q -> b, x; limit x to 1 in 2; monitor p, q;";
    bad_at_last(FIRST, text, &[3, 3]);
    let each = text.replace("monitor p, q", "monitor p");
    clean(&each, &[3, 3, 3, 3]);
}

// Several limits, and monitors before them.

#[test]
fn the_lowest_limit_is_named() {
    let text = limited("limit x to 2 in 3; limit x to 3 in 10; limit x to 1 in 2;");
    bad_at_last(34, &text, &[1, 1]);
    let text = limited("limit x to 2 in 3; limit x to 3 in 10; limit x to 2 in 4;");
    bad_at_last(FIRST, &text, &[1, 1, 1]);
    bad_at_last(34, &text, &[1, 1, 0, 1]);
    bad_at_last(33, &text, &[1, 1, 0, 0, 1, 1]);
    // The same twice.
    bad_at_last(FIRST, &limited(&"limit x to 0 in 1;".repeat(8)), &[1]);
}

#[test]
fn limits_are_numbered_in_the_order_of_the_text() {
    let text = "input a; input b; x -> a; y -> b; p -> x || !a; q -> y || !b; \
                limit y to 0 in 1; limit x to 0 in 1; monitor p, q;";
    bad_at_last(33, text, &[1]);
    bad_at_last(FIRST, text, &[2]);
    bad_at_last(FIRST, text, &[3]);
    // Up to the eighth.
    for number in 0..8 {
        let mut limits = ["limit x to 1 in 2; "; 8];
        limits[number] = "limit x to 0 in 2; ";
        bad_at_last(FIRST + number, &limited(&limits.concat()), &[0, 1]);
    }
}

#[test]
fn each_limit_has_its_own_window() {
    let text = "input a; input b; x -> a; y -> b; p -> x || !a; q -> y || !b; \
                limit x to 1 in 3; limit y to 2 in 4; monitor p, q;";
    clean(text, &[3, 2, 0, 1, 2, 2, 1]);
    bad_at_last(FIRST, text, &[3, 2, 1]);
    bad_at_last(33, text, &[3, 2, 0, 2]);
    bad_at_last(FIRST, text, &[3, 2, 3]);
}

#[test]
fn monitors_are_asked_before_limits() {
    let text = "input a; input b; x -> a; p -> x || !a; q -> b; limit x to 1 in 2; monitor p, q;";
    bad_at_last(FIRST, text, &[3, 3]);
    // Monitor 0 fits and passes the limit; monitor 1 does not fit.
    bad_at_last(1, text, &[3, 1]);
    bad_at_last(1, text, &[3, 0]);
    let many = format!("{}q", "p, ".repeat(31));
    let text = text.replace("monitor p, q", &format!("monitor {many}"));
    bad_at_last(31, &text, &[3, 1]);
    bad_at_last(FIRST, &text, &[3, 3]);
    let program = open(&text);
    let mut watch = Watch::new(&program);
    assert_eq!(watch.take(3).answer, Answer::Ok);
    assert_eq!(watch.look(1), Answer::Bad(31));
    assert_eq!(watch.look(3), Answer::Bad(FIRST));
}

// A tick beyond a limit is a bad one.

#[test]
fn a_watch_stops_beyond_a_limit_and_is_else_as_before() {
    let text = "input a; input b; internal s = 0; x -> a {s <- 1;}; \
                p -> x || !a {s <- 0;}; q -> b || !b; limit x to 1 in 2; monitor p, q;";
    let program = open(text);
    let mut watch = Watch::new(&program);
    for word in [3, 2] {
        assert_eq!(watch.take(word).answer, Answer::Ok);
    }
    assert_eq!(
        (watch.stores(), watch.totals()),
        (&[0][..], &[vec![1, 1], vec![2, 0]][..])
    );
    assert_eq!(watch.take(1).answer, Answer::Ok);
    let shown = |watch: &Watch| {
        let totals = watch.totals().to_vec();
        (
            watch.ticks(),
            watch.word_before(),
            watch.stores().to_vec(),
            totals,
        )
    };
    let before = shown(&watch);
    assert_eq!(watch.take(3).answer, Answer::Bad(FIRST));
    assert_eq!(shown(&watch), before);
    assert_eq!(before, (3, 1, vec![1], vec![vec![2, 1], vec![2, 1]]));
    // Words that were ok, bad or stray.
    for word in [0, 1, 4] {
        let refused = |answer| matches!(answer, Answer::Refused(refusal) if refusal.number() == 16);
        assert!(refused(watch.look(word)));
        assert!(refused(watch.take(word).answer));
    }
    assert_eq!(shown(&watch), before);
}

#[test]
fn rows_are_touched_as_on_every_other_bad_take() {
    let text = "input a; input b; x -> a; p -> x @ (b || !b, b) || !a; q -> a || !a; \
                limit x to 1 in 2; monitor p, q;";
    let unlimited = text.replace("limit x to 1 in 2; ", "");
    let (limited, unlimited) = (open(text), open(&unlimited));
    let (mut watch, mut other) = (Watch::new(&limited), Watch::new(&unlimited));
    for word in [0, 1, 2, 1] {
        assert_eq!(watch.take(word), other.take(word));
    }
    let (beyond, ok) = (watch.take(3), other.take(3));
    assert_eq!((beyond.answer, ok.answer), (Answer::Bad(FIRST), Answer::Ok));
    assert_eq!(beyond.touched, ok.touched);
    assert!(beyond.touched > 0);
    assert_eq!(watch.take(3).touched, 0);
    // As many as at a word that is bad for a monitor.
    let one = "input a; x -> a; limit x to 1 in 2; monitor x;";
    let program = open(one);
    let mut watch = Watch::new(&program);
    assert_eq!(watch.take(1).touched, 1);
    let mut other = watch.clone();
    assert_eq!(
        (watch.take(1).answer, other.take(0).answer),
        (Answer::Bad(FIRST), Answer::Bad(0))
    );
    let program = open(&one.replace("to 1 in 2", "to 0 in 1"));
    let taken = Watch::new(&program).take(1);
    assert_eq!((taken.answer, taken.touched), (Answer::Bad(FIRST), 1));
}

#[test]
fn a_sheet_ends_with_the_line_of_such_a_tick_and_its_foot() {
    let text = limited("limit x to 1 in 3;");
    let expected = "rows 3 letters 2\n\
                    0 0000000000000001 ok\n\
                    1 0000000000000000 ok\n\
                    2 0000000000000003 bad 32\n\
                    met 0 0 1\n\
                    met 0 1 1\n\
                    total 2\n";
    // The rest of the trace is not read.
    assert_eq!(sheet(&text, &[1, 0, 3, 0, 1]), expected);
    let torn = [&trace(&[1, 0, 3])[..], &[1]].concat();
    assert_eq!(second::sheet(text.as_bytes(), &torn), expected.as_bytes());
    assert_eq!(last_line(&text, &[1, 0, 0, 1]), "clean 4");
    assert_eq!(last_line(&text, &[]), "clean 0");
    let two = "input a; x -> a; limit x to 5 in 9; limit x to 0 in 1; monitor x;";
    assert_eq!(last_line(two, &[1]), "0 0000000000000001 bad 33");
}

#[test]
fn calls_are_answered_with_the_number_of_the_limit() {
    let text = "input a; x -> a; p -> x || !a; limit x to 1 in 2; monitor p;";
    let calls = [
        (b'L', 1),
        (b'T', 1),
        (b'L', 1),
        (b'L', 0),
        (b'T', 2),
        (b'T', 1),
        (b'L', 0),
        (b'T', 0),
    ];
    let mut bytes = Vec::new();
    for (letter, word) in calls {
        bytes.push(letter);
        bytes.extend(u64::to_le_bytes(word));
    }
    let answer = answer_calls(text.as_bytes(), &bytes).expect("the calls are whole");
    let expected = "rows 3 letters 2\n\
                    look ok\n\
                    take ok touched 3\n\
                    look bad 32\n\
                    look ok\n\
                    take refused 15 touched 0\n\
                    take bad 32 touched 5\n\
                    look refused 16\n\
                    take refused 16 touched 0\n\
                    met 0 0 1\n\
                    met 0 1 0\n\
                    total 1\n";
    assert_eq!(String::from_utf8(answer).unwrap(), expected);
}

#[test]
fn a_watch_that_is_copied_has_its_own_windows() {
    let program = open(&limited("limit x to 2 in 4;"));
    let mut watch = Watch::new(&program);
    assert_eq!(watch.take(1).answer, Answer::Ok);
    let mut other = watch.clone();
    assert_eq!(watch.take(1).answer, Answer::Ok);
    assert_eq!(other.take(0).answer, Answer::Ok);
    assert_eq!(watch.take(1).answer, Answer::Bad(FIRST));
    assert_eq!(other.take(1).answer, Answer::Ok);
    assert_eq!(other.take(1).answer, Answer::Bad(FIRST));
}

#[test]
fn a_text_without_limits_has_none() {
    let text = abc("a || !a");
    assert_eq!(open(&text).limits(), 0);
    clean(&text, &rows(&[(1, 3_000)]));
}

#[test]
fn a_million_ticks_with_eight_limits() {
    // On 1,023 of 1,024 ticks x is met, and y at the end of each row of 64.
    let text = "input a; input b; x -> a; y -> b; p -> x || !a; q -> y || !b; \
                limit x to 1023 in 1024; limit y to 1022 in 1023; limit y to 16 in 1024; \
                limit y to 1 in 64; limit y to 2 in 65; limit y to 64 in 65; \
                limit x to 1023 in 1024; limit y to 1 in 64; monitor p, q;";
    let program = open(text);
    let mut watch = Watch::new(&program);
    for tick in 0..1_000_000u64 {
        let (x, y) = (tick % 1_024 != 1_023, tick % 64 == 63);
        if tick % 50_000 == 49_999 {
            let full = tick % 1_024 == 1_023;
            let expected = if full { Answer::Bad(FIRST) } else { Answer::Ok };
            assert_eq!(watch.look(1 | u64::from(y) << 1), expected);
        }
        let word = u64::from(x) | u64::from(y) << 1;
        assert_eq!(watch.take(word).answer, Answer::Ok, "tick {tick}");
    }
    assert_eq!(watch.totals(), [[999_024, 976], [15_625, 984_375]]);
    assert!(matches!(watch.look(1), Answer::Refused(refusal) if refusal.number() == 17));
}

// Random limits on random productions.

/// Productions p0, p1 and so on, each of one letter: the wire of this number,
/// or a copy of an earlier production.
enum Letter {
    Wire(usize),
    Copy(usize),
}

/// A limit on a production: on how many ticks, of how many.
struct Limit {
    production: usize,
    most: usize,
    window: usize,
}

/// Monitors that are rows of productions, one a tick.
struct Rows {
    productions: Vec<Letter>,
    monitors: Vec<Vec<usize>>,
    limits: Vec<Limit>,
}

impl Rows {
    fn random(numbers: &mut Numbers) -> Rows {
        let productions: Vec<Letter> = (0..8)
            .map(|number| match numbers.below(2) {
                1 if number > 0 => Letter::Copy(numbers.below(number)),
                _ => Letter::Wire(numbers.below(3)),
            })
            .collect();
        let monitors = (0..1 + numbers.below(3))
            .map(|_| {
                (0..1 + numbers.below(5))
                    .map(|_| numbers.below(8))
                    .collect()
            })
            .collect();
        let limits = (0..numbers.below(9))
            .map(|_| {
                let most = 1 + numbers.below(5);
                Limit {
                    production: numbers.below(8),
                    most,
                    window: most + 1 + numbers.below(8),
                }
            })
            .collect();
        Rows {
            productions,
            monitors,
            limits,
        }
    }

    /// Monitor number m is the production rm, or the listed production itself
    /// if it is one alone.
    fn text(&self) -> String {
        let mut text = String::from("input w0; input w1; input w2; ");
        for (number, letter) in self.productions.iter().enumerate() {
            text += &match letter {
                Letter::Wire(wire) => format!("p{number} -> w{wire}; "),
                Letter::Copy(other) => format!("p{number} -> (p{other}); "),
            };
        }
        let mut listed = Vec::new();
        for (number, row) in self.monitors.iter().enumerate() {
            let names: Vec<String> = row.iter().map(|name| format!("p{name}")).collect();
            if names.len() == 1 {
                listed.push(names[0].clone());
            } else {
                text += &format!("r{number} -> {}; ", names.join(", "));
                listed.push(format!("r{number}"));
            }
        }
        for limit in &self.limits {
            let Limit {
                production,
                most,
                window,
            } = limit;
            text += &format!("limit p{production} to {most} in {window}; ");
        }
        text + &format!("monitor {};", listed.join(", "))
    }

    /// The wire of a production's letter.
    fn wire(&self, production: usize) -> usize {
        match self.productions[production] {
            Letter::Wire(wire) => wire,
            Letter::Copy(other) => self.wire(other),
        }
    }

    /// Whether a copy of a production is opened through another one, or it is
    /// this one.
    fn is_through(&self, production: usize, other: usize) -> bool {
        match self.productions[production] {
            _ if production == other => true,
            Letter::Wire(_) => false,
            Letter::Copy(inner) => self.is_through(inner, other),
        }
    }

    /// Whether the limit has a letter that counts at this tick.
    fn counts(&self, limit: &Limit, tick: usize) -> bool {
        let mut met = self.monitors.iter().map(|row| row[tick % row.len()]);
        met.any(|production| self.is_through(production, limit.production))
    }

    /// What the word of a tick answers if all words before were ok: the letters
    /// met then do not depend on the words.
    fn answer(&self, tick: usize, word: u64) -> Answer {
        for (number, row) in self.monitors.iter().enumerate() {
            if word >> self.wire(row[tick % row.len()]) & 1 == 0 {
                return Answer::Bad(number);
            }
        }
        for (number, limit) in self.limits.iter().enumerate() {
            let begin = (tick + 1).saturating_sub(limit.window);
            let ticks = (begin..=tick).filter(|tick| self.counts(limit, *tick));
            if ticks.count() > limit.most {
                return Answer::Bad(FIRST + number);
            }
        }
        Answer::Ok
    }
}

#[test]
fn random_rows_of_productions_keep_their_limits() {
    let mut numbers = Numbers(77);
    let (mut clean, mut by_monitor, mut by_limit) = (0, 0, [0; 8]);
    for _ in 0..20_000 {
        let rules = Rows::random(&mut numbers);
        let text = rules.text();
        let program = open(&text);
        let mut watch = Watch::new(&program);
        let mut answer = Answer::Ok;
        for tick in 0..40 {
            for word in 0..8 {
                let expected = rules.answer(tick, word);
                assert_eq!(watch.look(word), expected, "{text} {tick} {word}");
            }
            let word = if numbers.below(200) == 0 { 3 } else { 7 };
            answer = watch.take(word).answer;
            if answer != Answer::Ok {
                break;
            }
        }
        match answer {
            Answer::Ok => clean += 1,
            Answer::Bad(number) if number < FIRST => by_monitor += 1,
            Answer::Bad(number) => by_limit[number - FIRST] += 1,
            Answer::Refused(refusal) => panic!("{refusal}: {text}"),
        }
    }
    assert!(clean > 1_000 && by_monitor > 500, "{clean} {by_monitor}");
    assert!(by_limit.iter().all(|count| *count > 50), "{by_limit:?}");
}

#[test]
fn the_foot_below_a_limit_has_the_totals_of_the_ticks_before() {
    let text = "input a; input b; x -> a; p -> x @ b || !a; limit x to 2 in 4; monitor p, x;";
    // x of monitor 1 asks for a at each tick.
    let sheet = sheet(text, &[1, 3, 3]);
    let (above, foot) = cut_foot(&sheet);
    assert_eq!(above[3], "2 0000000000000003 bad 32");
    let expected = [
        "met 0 0 2",
        "met 0 1 1",
        "met 0 2 0",
        "met 1 0 2",
        "total 5",
    ];
    assert_eq!(foot, expected);
}

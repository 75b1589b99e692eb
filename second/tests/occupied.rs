//! One start of a thread at a time: two that both require a letter at one tick
//! are bad, however they came about, and nothing else is.

mod common;

use common::{abc, counts, last_line};
use second::{Answer, Program, Watch};

/// The same as `abc` with one more wire, d.
fn abcd(expression: &str) -> String {
    format!("input a; input b; input c; input d; p -> {expression}; monitor p;")
}

/// Checks that all words fit.
fn clean(text: &str, words: &[u64]) {
    let expected = format!("clean {}", words.len());
    assert_eq!(last_line(text, words), expected, "{text} {words:?}");
}

/// Checks that the last word is the first one that does not fit.
fn bad(text: &str, words: &[u64]) {
    bad_monitor(0, text, words);
}

/// The same with the monitor that is named.
fn bad_monitor(monitor: usize, text: &str, words: &[u64]) {
    let (word, before) = words.split_last().expect("there is a word");
    let expected = format!("{} {word:016x} bad {monitor}", before.len());
    assert_eq!(last_line(text, words), expected, "{text} {words:?}");
}

/// Checks that whatever word comes behind these, it does not fit.
fn bad_with_any_word(words_of_text: u64, text: &str, words: &[u64]) {
    clean(text, words);
    for word in 0..words_of_text {
        bad(text, &[words, &[word]].concat());
    }
}

fn open(text: &str) -> Program {
    second::open(text.as_bytes()).unwrap_or_else(|refusal| panic!("{refusal}: {text}"))
}

// When two starts require a letter.

#[test]
fn a_second_start_while_the_first_goes_on_is_bad() {
    let text = abc("a @ (b, c)");
    bad(&text, &[1, 3, 7]);
    bad(&text, &[1, 3, 0]);
    // Not before the tick at which both require a letter, and then always.
    bad_with_any_word(8, &text, &[1, 3]);
}

#[test]
fn the_shape_is_judged_as_before() {
    assert_eq!(counts(&abc("a @ (b, c)")), (5, 3));
    assert_eq!(counts(&abc("(a @ (b, c, b))*, !a")), (10, 5));
}

#[test]
fn a_start_is_over_with_its_last_letter() {
    let text = abc("a @ (b, c) || !a");
    // The next one is called for at the tick of that letter.
    clean(&text, &[1, 2, 5, 2, 5, 2, 5, 2, 4, 0]);
    // One tick earlier it would begin there.
    bad_with_any_word(8, &text, &[1, 3]);
    bad_with_any_word(8, &text, &[1, 2, 5, 3]);
    clean(&text, &[1, 2, 4, 1, 2, 4]);
}

#[test]
fn threads_of_one_letter_never_overlap() {
    let text = abc("a @ b || !a");
    clean(&text, &[1, 3, 3, 3, 3, 3, 2, 0]);
    bad(&text, &[1, 3, 3, 1]);
    clean(&abc("a @ b"), &[1, 3, 3, 3, 3]);
    clean(&abc("a @ (b || c & !b) || !a"), &[1, 3, 5, 7, 3, 4, 0]);
}

#[test]
fn the_way_that_a_start_takes_says_when_it_is_over() {
    let text = abc("a @ (b || !b, b) || !a");
    clean(&text, &[1, 3, 3, 2]);
    clean(&text, &[1, 0, 3, 2]);
    clean(&text, &[1, 3, 0, 3, 2]);
    bad_with_any_word(8, &text, &[1, 1]);
    bad_with_any_word(8, &text, &[1, 3, 1]);
    let text = abc("a @ (b, c || c & !b) || !a");
    clean(&text, &[1, 5, 4]);
    clean(&text, &[1, 5, 5, 2, 5, 5]);
    bad_with_any_word(8, &text, &[1, 3]);
}

#[test]
fn two_starts_in_the_same_place_are_two() {
    let text = abc("a @ (b & !c*, c) || !a");
    bad(&text, &[1, 3, 2]);
    bad_with_any_word(8, &text, &[1, 3]);
    bad_with_any_word(8, &text, &[1, 2, 2, 3]);
    clean(&text, &[1, 2, 2, 2, 2, 5, 2, 4, 0]);
    clean(&text, &[1, 5, 5, 5, 3]);
}

#[test]
fn a_thread_with_a_star_inside_goes_on_until_it_is_left() {
    let text = abc("a @ (c, (b & !c)*, c) || !a");
    clean(&text, &[1, 4, 4]);
    clean(&text, &[1, 4, 2, 2, 2, 5, 4, 2, 4]);
    bad_with_any_word(8, &text, &[1, 5]);
    bad_with_any_word(8, &text, &[1, 4, 2, 3]);
    let text = abc("a @ ((b & c || b & !c), (b & !c)*, !b) || !a");
    clean(&text, &[1, 2, 2, 2, 1, 6, 1, 2, 0]);
    bad_with_any_word(8, &text, &[1, 6, 3]);
}

// Which starts are of the same thread.

#[test]
fn copies_of_a_production_have_threads_of_their_own() {
    let declared = "input a; input b; input c; t -> a @ (b, c); ";
    let text = format!("{declared}p -> t, t || !a; monitor p;");
    clean(&text, &[1, 3, 6]);
    clean(&text, &[1, 3, 6, 4, 1, 3, 6]);
    let text = format!("{declared}p -> t, t; monitor p;");
    clean(&text, &[1, 3, 7, 7, 7]);
    // The first copy comes round again before its own thread has ended.
    let longer = text.replace("(b, c)", "(b, c, c)");
    bad_with_any_word(8, &longer, &[1, 3, 7]);
    // A production of a production.
    let text = format!("{declared}u -> t, t; p -> u, u || !a; monitor p;");
    clean(&text, &[1, 3, 7, 7, 6, 4]);
}

#[test]
fn copies_of_a_thread_may_be_in_the_same_place() {
    let text = "input a; input b; t -> b, !b; p -> (a @ t) @ t || !a; monitor p;";
    clean(text, &[1, 2, 0, 1, 2, 0]);
    bad(text, &[1, 2, 2]);
}

#[test]
fn each_monitor_has_threads_of_its_own() {
    let text = "input a; input b; input c; t -> a @ (b, c) || !a; monitor t, t;";
    clean(text, &[1, 2, 5, 2, 4]);
    bad_with_any_word(8, text, &[1, 3]);
    let text = "input a; input b; input c; p -> a @ (c, c) || !a; q -> b @ (c, c) || !b; \
                monitor p, q;";
    clean(text, &[1, 6, 4, 4]);
    clean(text, &[3, 4, 7, 4, 4]);
    bad_monitor(1, text, &[1, 6, 6, 4]);
    bad_monitor(0, text, &[2, 5, 5, 4]);
    bad_monitor(0, text, &[3, 7, 4]);
}

#[test]
fn a_starred_pipeline_is_one_thread() {
    let text = abc("(a @ (b, c))*, !a");
    bad(&text, &[1, 3, 6]);
    bad_with_any_word(8, &text, &[1, 3]);
    clean(&text, &[1, 2, 5, 2, 4]);
    let text = abc("((a, !a) @ (b, c))*, !a");
    clean(&text, &[1, 0, 3, 4, 3, 4, 2]);
    bad(&text, &[1, 0, 3, 4, 3, 4, 0]);
    bad_with_any_word(8, &abc("((a, !a) @ (b, c, c))*, !a"), &[1, 0, 3, 4]);
}

#[test]
fn two_threads_that_one_letter_starts() {
    let text = abc("(a @ (b, b)) @ (c, c) || !a");
    clean(&text, &[1, 6, 6]);
    clean(&text, &[1, 6, 7, 6, 6]);
    bad_with_any_word(8, &text, &[1, 7]);
    // Only one of them is still running.
    bad_with_any_word(8, &abc("(a @ b) @ (c, c) || !a"), &[1, 7]);
    bad_with_any_word(8, &abc("(a @ (c, c)) @ b || !a"), &[1, 7]);
    clean(&abc("(a @ b) @ c || !a"), &[1, 7, 7, 7]);
}

#[test]
fn threads_on_the_left_of_a_pipeline_run_beside_its_own() {
    let text = abc("(a @ (b, b), !a) @ (c, c), !a");
    clean(&text, &[1, 2, 6, 5, 2, 6, 5]);
    // Starts at 1, 4 and 7 of one thread, at 2, 5 and 8 of the other.
    let longer = abc("(a @ (b, b, b, b), !a) @ (c, c), !a");
    bad_with_any_word(8, &longer, &[1, 2, 6, 7]);
    let longer = abc("(a @ (b, b), !a) @ (c, c, c, c), !a");
    bad_with_any_word(8, &longer, &[1, 2, 6, 5, 6]);
}

// Threads inside threads.

#[test]
fn an_inner_thread_is_one_thread_whichever_outer_start_begins_it() {
    let text = abcd("a @ (b @ (c, d)) || !a");
    bad(&text, &[1, 3, 6, 12]);
    bad_with_any_word(16, &text, &[1, 3, 6]);
    clean(&text, &[1, 2, 5, 10, 4, 8, 0]);
}

#[test]
fn an_outer_start_is_over_though_its_inner_thread_goes_on() {
    let text = abcd("a @ (b @ (c, d)) || !a");
    clean(&text, &[1, 3, 6]);
    // The outer one begins at 1, 3 and 5, the inner one at 2, 4 and 6.
    clean(&text, &[1, 2, 5, 10, 5, 10, 4, 8]);
    // The outer one begins at 4 too.
    bad_with_any_word(16, &text, &[1, 2, 5, 11, 6]);
    let text = abcd("a @ (b @ (c, c, d)) || !a");
    bad_with_any_word(16, &text, &[1, 2, 5, 6]);
}

#[test]
fn letters_of_an_inner_thread_are_not_required_by_the_outer_one() {
    // Both have a letter at 2 and at 3.
    let text = abc("a @ (b @ (c, c), b, b) || !a");
    clean(&text, &[1, 2, 6, 7, 2, 6, 6]);
    bad_with_any_word(8, &text, &[1, 2, 7]);
    bad_with_any_word(8, &text, &[1, 3]);
    // The outer one has its last letter before the inner one does.
    let text = abc("a @ (b @ (c, c), b) || !a");
    clean(&text, &[1, 2, 7, 6, 6, 4]);
    bad_with_any_word(8, &text, &[1, 3]);
}

#[test]
fn one_outer_start_can_begin_its_inner_thread_twice() {
    let text = abcd("a @ ((b @ (c, c))*, d & !b) || !a");
    bad_with_any_word(16, &text, &[1, 2, 6]);
    clean(&text, &[1, 2, 12, 4]);
    let text = abcd("a @ ((b @ (c, c), !b)*, d & !b) || !a");
    clean(&text, &[1, 2, 4, 6, 4, 12]);
    clean(&text, &[1, 2, 4, 6, 4, 13, 2, 4]);
    // The inner thread is longer than the outer start waits.
    let text = abcd("a @ ((b @ (c, c, c), !b)*, d & !b) || !a");
    clean(&text, &[1, 2, 4, 12, 4]);
    bad_with_any_word(16, &text, &[1, 2, 4, 6]);
}

#[test]
fn a_later_outer_start_can_find_the_inner_thread_running() {
    let text = abc("a @ (b @ (c, c, c), b) || !a");
    clean(&text, &[1, 2, 6, 5, 6, 6, 4, 4]);
    // The outer one begins at 1 and 3, the inner one at 2 and 4.
    bad_with_any_word(8, &text, &[1, 2, 7, 6]);
}

#[test]
fn threads_three_deep() {
    let text = abcd("a @ (b @ (c @ (d, d))) || !a");
    clean(&text, &[1, 2, 4, 8, 8]);
    clean(&text, &[1, 2, 5, 10, 12, 8, 8]);
    clean(&text, &[1, 3, 6, 12]);
    bad_with_any_word(16, &text, &[1, 3, 6, 12]);
}

// Branches that go different ways.

#[test]
fn a_left_operand_that_goes_on_starts_nothing() {
    let text = abc("(a, b*) @ (c, c, c), !b");
    clean(&text, &[1, 4, 5, 6]);
    clean(&text, &[1, 4, 5, 6, 2, 4]);
    clean(&text, &[1, 4, 5, 6, 4, 5, 6, 4]);
    // Left at 3, where the older start requires its last letter.
    bad(&text, &[1, 4, 5, 4]);
    bad(&text, &[1, 4, 5, 0]);
}

#[test]
fn a_star_left_in_two_ways_is_two_branches() {
    let expression = "(a, ((b & !c)* || (c & !b)*)) @ (d, d), !a & !b & !c";
    let text = abcd(expression);
    clean(&text, &[1, 8, 9]);
    clean(&text, &[1, 8, 9, 8, 9, 8]);
    clean(&text, &[1, 2, 2, 8, 9, 4, 8, 9]);
    let longer = abcd(&expression.replace("(d, d)", "(d, d, d)"));
    bad(&longer, &[1, 8, 9, 8]);
    clean(&longer, &[1, 8, 9, 10, 8]);
    clean(&longer, &[1, 8, 9, 12, 8]);
}

#[test]
fn ways_that_lead_to_the_same_letter_start_a_thread_once() {
    let text = abcd("(a, (b & !c)*, ((c & !b)* || (b & c)*)) @ (d, d), !b & !c");
    clean(&text, &[1, 8, 9]);
    clean(&text, &[1, 10, 14, 8, 9, 8]);
    let text = abcd("(a @ (d, d), (b & !c)*, (c & !b)*) @ (d, d), !b & !c");
    clean(&text, &[1, 8, 9, 8, 9]);
}

// What a bad tick leaves, and looks.

#[test]
fn an_occupied_tick_writes_nothing() {
    let text = "input a; input b; internal s = 0; internal t[1:0] = 0; \
                w -> a {s <- 1;} || !a {s <- 0;}; \
                p -> a @ (b {t <- 1;}, b {t <- 2;}) || !a {t <- 3;}; monitor w, p;";
    let program = open(text);
    let mut watch = Watch::new(&program);
    assert_eq!(watch.take(1).answer, Answer::Ok);
    assert_eq!(watch.take(3).answer, Answer::Ok);
    assert_eq!(watch.stores(), [1, 1]);
    assert_eq!(watch.take(2).answer, Answer::Bad(1));
    assert_eq!(watch.stores(), [1, 1]);
    assert_eq!((watch.ticks(), watch.word_before()), (2, 3));
    // Letters of both kinds are met if the thread is free.
    let mut watch = Watch::new(&program);
    for (word, stores) in [(1, [1, 0]), (2, [0, 3]), (3, [1, 2]), (2, [0, 3])] {
        assert_eq!(watch.take(word).answer, Answer::Ok);
        assert_eq!(watch.stores(), stores);
    }
}

#[test]
fn an_occupied_look_is_bad_and_stops_nothing() {
    let program = open(&abc("a @ (b, c) || !a"));
    let mut watch = Watch::new(&program);
    assert_eq!(watch.take(1).answer, Answer::Ok);
    assert_eq!(watch.take(3).answer, Answer::Ok);
    for word in 0..8 {
        assert_eq!(watch.look(word), Answer::Bad(0));
    }
    assert_eq!(watch.ticks(), 2);
    assert_eq!(watch.take(6).answer, Answer::Bad(0));
    assert!(matches!(watch.look(6), Answer::Refused(r) if r.number() == 16));
    assert!(matches!(watch.take(6).answer, Answer::Refused(r) if r.number() == 16));
}

#[test]
fn a_look_starts_no_thread_and_ends_none() {
    let program = open(&abc("a @ (b, c) || !a"));
    let mut watch = Watch::new(&program);
    assert_eq!(watch.take(1).answer, Answer::Ok);
    assert_eq!(watch.look(3), Answer::Ok);
    assert_eq!(watch.take(2).answer, Answer::Ok);
    assert_eq!(watch.look(4), Answer::Ok);
    assert_eq!(watch.look(5), Answer::Ok);
    assert_eq!(watch.take(5).answer, Answer::Ok);
    assert_eq!(watch.look(2), Answer::Ok);
    assert_eq!(watch.take(3).answer, Answer::Ok);
    assert_eq!(watch.look(4), Answer::Bad(0));
    assert_eq!(watch.take(6).answer, Answer::Bad(0));
}

#[test]
fn refused_calls_take_no_time() {
    let program = open(&abc("a @ (b, c) || !a"));
    let mut watch = Watch::new(&program);
    for word in [1, 2, 5, 2, 4] {
        assert!(matches!(watch.take(8).answer, Answer::Refused(r) if r.number() == 15));
        assert_eq!(watch.take(word).answer, Answer::Ok);
    }
}

#[test]
fn a_watch_that_is_copied_goes_on_by_itself() {
    let program = open(&abc("a @ (b, c) || !a"));
    let mut watch = Watch::new(&program);
    assert_eq!(watch.take(1).answer, Answer::Ok);
    let mut other = watch.clone();
    assert_eq!(watch.take(3).answer, Answer::Ok);
    assert_eq!(other.take(2).answer, Answer::Ok);
    assert_eq!(watch.look(4), Answer::Bad(0));
    assert_eq!(other.take(5).answer, Answer::Ok);
    assert_eq!(watch.take(4).answer, Answer::Bad(0));
    assert_eq!(other.take(2).answer, Answer::Ok);
}

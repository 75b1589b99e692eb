//! The literal `wire == past(wire)`: where it may stand, what it counts for,
//! and when it holds.

mod common;

use common::{abc, counts, last_line, refused_at_letter, refused_at_mark};
use second::{Answer, Program, Watch};

/// Declarations to set the expressions of the tests behind: a is bit 0, F bits
/// 1 to 4, G bits 5 to 8.
const DECLARED: &str = "input a; input F[3:0]; input G[3:0]; \
    internal s = 0; internal t[3:0] = 5; define k = a & F == past(F); q -> a; ";

fn text(expression: &str) -> String {
    format!("{DECLARED}p -> {expression}; monitor p;")
}

/// Checks an expression with a `^` before the token at fault.
fn expression_refused(number: u8, marked: &str) {
    refused_at_mark(number, &text(marked));
}

fn expression_accepted(expression: &str) {
    counts(&text(expression));
}

/// The word with these values of F and G, a being 0.
fn word(f: u64, g: u64) -> u64 {
    f << 1 | g << 5
}

fn program(expression: &str) -> Program {
    second::open(text(expression).as_bytes()).expect("the text is accepted")
}

// Where it may stand.

#[test]
fn any_input_may_be_compared_and_blanks_are_free() {
    expression_accepted("a == past(a)");
    expression_accepted("F == past(F)");
    expression_accepted("F==past(F)&a==past(a)");
    expression_accepted("F \n==\tpast\r\n(  F\n)");
    expression_accepted("!a & F == past(F) & t == 5 {s <- 1;}");
    counts("input whole[63:0]; p -> whole == past(whole); monitor p;");
    counts("input narrow[0:0]; p -> narrow == past(narrow); monitor p;");
}

#[test]
fn defines_may_hold_it() {
    expression_accepted("k");
    expression_accepted("k & G == past(G)");
    counts("input a; define d = a == past(a); define e = d & a; p -> e; monitor p;");
    refused_at_mark(3, "input a; input b; define d = a == past(^b);");
    refused_at_mark(3, "input a; define d = !a ^== past(a);");
}

#[test]
fn past_is_no_name() {
    refused_at_mark(3, "input ^past;");
    refused_at_mark(3, "internal ^past = 0;");
    refused_at_mark(3, "input a; define ^past = a;");
    refused_at_mark(3, "input a; ^past -> a; monitor past;");
    refused_at_mark(3, "input a; p -> a; monitor ^past;");
    refused_at_mark(3, "input a[^past:0];");
    expression_refused(3, "^past");
    expression_refused(3, "^past(a)");
    expression_refused(3, "^past(a) == a");
    expression_refused(3, "!^past");
    expression_refused(3, "a & ^past");
    expression_refused(3, "a {^past <- 1;}");
    expression_refused(3, "F[^past]");
    counts("input pasts; input Past; p -> pasts & Past; monitor p;");
}

#[test]
fn the_inner_name_is_the_outer_one_once_more() {
    expression_refused(3, "F == past(^G)");
    expression_refused(3, "F == past(^a)");
    expression_refused(3, "F == past(^f)");
    expression_refused(3, "F == past(^FF)");
    expression_refused(3, "F == past(^t)");
    expression_refused(3, "F == past(^k)");
    expression_refused(3, "F == past(^q)");
    expression_refused(3, "F == past(^undeclared)");
    expression_refused(3, "F == past(^past)");
    expression_refused(3, "F == past(^input)");
}

#[test]
fn nothing_else_stands_between_the_parentheses() {
    expression_refused(3, "F == past(^(F))");
    expression_refused(3, "F == past(F^[0])");
    expression_refused(3, "F == past(^)");
    expression_refused(3, "F == past(^!F)");
    expression_refused(3, "F == past(^5)");
    expression_refused(3, "F == past(F^, F)");
    expression_refused(3, "F == past(F ^F)");
    expression_refused(3, "F == past(F^");
    expression_refused(3, "F == past^");
    expression_refused(3, "F == past ^F");
    expression_refused(3, "F == past ^[0]");
    expression_refused(3, "F == ^(past(F))");
    refused_at_mark(3, "input F[3:0]; p -> F == past^");
    refused_at_mark(3, "input F[3:0]; p -> F == past(^");
    refused_at_mark(3, "input F[3:0]; p -> F == past(F^");
}

#[test]
fn what_is_no_token_has_its_lower_number() {
    expression_refused(2, "F == past(^abcdefghijklmnopq)");
    expression_refused(2, "F == past(F ^#)");
    expression_refused(2, "F == past ^|");
}

#[test]
fn what_may_not_stand_on_its_left() {
    expression_refused(3, "!a ^== past(a)");
    expression_refused(3, "!F ^== past(F)");
    expression_refused(3, "F[0] ^== past(F[0])");
    expression_refused(3, "!F[0] ^== past(F[0])");
    expression_refused(3, "s == ^past(s)");
    expression_refused(3, "t == ^past(t)");
    expression_refused(3, "t == ^past(F)");
    expression_refused(3, "k ^== past(k)");
    expression_refused(3, "q ^== past(q)");
    expression_refused(4, "^zz == past(zz)");
    expression_refused(4, "a & ^zz == past(zz)");
    expression_refused(4, "a & ^q == past(q)");
}

#[test]
fn what_may_not_stand_behind_it() {
    expression_refused(3, "F == past(F)^[0]");
    expression_refused(3, "F == past(F) ^== 1");
    expression_refused(3, "F == past(F) ^past(F)");
    expression_refused(3, "a {s <- ^past(a);}");
    expression_refused(3, "a {t <- ^past(F);}");
}

// What it counts for.

#[test]
fn its_parentheses_are_no_level() {
    let within = |depth: usize, inner: &str| {
        let (open, close) = ("(".repeat(depth), ")".repeat(depth));
        format!("{open}{inner}{close}")
    };
    expression_accepted(&within(32, "F == past(F)"));
    expression_accepted(&within(32, "F == past(F), a & G == past(G)"));
    expression_refused(7, &within(32, "F == past(F), ^(a)"));
    expression_refused(3, &within(32, "F == past(^(F))"));
}

#[test]
fn it_does_not_count_for_number_9() {
    expression_accepted("F == 1 & F == past(F)");
    expression_accepted("a & a == past(a)");
    expression_accepted("!a & a == past(a)");
    refused_at_letter(9, 0, 0, &text("F == past(F) & F == 1 & F == 2"));
    refused_at_letter(9, 0, 1, &text("k, k & !a"));
}

#[test]
fn it_does_not_count_for_number_12() {
    refused_at_letter(12, 0, 0, &abc("a == past(a) || !a"));
    refused_at_letter(12, 0, 0, &abc("a == past(a) || a"));
    refused_at_letter(12, 0, 0, &abc("a == past(a) || b == past(b)"));
    refused_at_letter(12, 0, 1, &abc("a, (b == past(b))*, a == past(a)"));
    expression_accepted("a == past(a) & a || !a");
    expression_accepted("k || !a & F == past(F)");
}

#[test]
fn it_is_no_store_test() {
    expression_accepted("t == 5 & s == 0 & F == past(F) & a == past(a)");
    expression_accepted("F == past(F) & a == past(a) & t == 5 & s == 0");
    expression_accepted("k & k & k & t == 5 & F == t");
    expression_refused(7, "F == past(F) & t == 5 & s == 0 & ^s == 1");
    let many = vec!["F == past(F)"; 900].join(" & ");
    expression_accepted(&many);
}

#[test]
fn a_letter_with_it_is_one_row() {
    assert_eq!(counts(&text("F == past(F)")), (1, 1));
    assert_eq!(counts(&text("k & G == past(G), a == past(a)")), (3, 2));
}

// When it holds.

#[test]
fn the_word_before_tick_0_is_zero() {
    let held = text("F == past(F)");
    assert_eq!(last_line(&held, &[0]), "clean 1");
    assert_eq!(last_line(&held, &[word(0, 7) | 1]), "clean 1");
    assert_eq!(last_line(&held, &[word(1, 0)]), "0 0000000000000002 bad 0");
    let bit = text("a == past(a)");
    assert_eq!(last_line(&bit, &[word(15, 15)]), "clean 1");
    assert_eq!(last_line(&bit, &[1]), "0 0000000000000001 bad 0");
}

#[test]
fn a_field_is_compared_with_itself_one_word_earlier() {
    let twice = text("a || !a & F == past(F)");
    let first = word(9, 0) | 1;
    assert_eq!(last_line(&twice, &[first, word(9, 3)]), "clean 2");
    assert_eq!(
        last_line(&twice, &[first, word(9, 3), word(9, 0)]),
        "clean 3"
    );
    assert_eq!(
        last_line(&twice, &[first, word(8, 0)]),
        "1 0000000000000010 bad 0"
    );
    assert_eq!(
        last_line(&twice, &[first, word(13, 0)]),
        "1 000000000000001a bad 0"
    );
    // Not with a word further back, nor with the first one.
    let moved = [first, word(4, 0) | 1, word(9, 0)];
    assert_eq!(last_line(&twice, &moved), "2 0000000000000012 bad 0");
}

#[test]
fn a_wire_of_one_bit_is_compared_both_ways() {
    let bit = text("F == 0 || F == 1 & a == past(a)");
    for (before, now) in [(0, 0), (1, 1)] {
        assert_eq!(last_line(&bit, &[before, 2 | now]), "clean 2");
    }
    for (before, now) in [(0, 1), (1, 0)] {
        let bad = format!("1 {:016x} bad 0", 2 | now);
        assert_eq!(last_line(&bit, &[before, 2 | now]), bad);
    }
}

#[test]
fn all_64_bits_are_compared() {
    let whole = "input W[63:0]; p -> W[0]; q -> W == past(W); monitor p, q;";
    assert_eq!(last_line(whole, &[1]), "0 0000000000000001 bad 1");
    let high = "input low[62:0]; input h; p -> low[0] || !low[0] & h == past(h); monitor p;";
    assert_eq!(last_line(high, &[1 << 63 | 1, 1 << 63]), "clean 2");
    assert_eq!(last_line(high, &[1, 1 << 63]), "1 8000000000000000 bad 0");
}

#[test]
fn several_in_a_letter_must_all_hold() {
    let both = text("a || !a & F == past(F) & G == past(G)");
    let first = word(3, 4) | 1;
    assert_eq!(last_line(&both, &[first, word(3, 4)]), "clean 2");
    assert_eq!(
        last_line(&both, &[first, word(3, 5)]),
        "1 00000000000000a6 bad 0"
    );
    assert_eq!(
        last_line(&both, &[first, word(2, 4)]),
        "1 0000000000000084 bad 0"
    );
}

#[test]
fn it_holds_in_a_define_as_where_it_is_opened() {
    let opened = text("!a || k");
    assert_eq!(last_line(&opened, &[word(6, 0), word(6, 1) | 1]), "clean 2");
    assert_eq!(
        last_line(&opened, &[word(6, 0), word(7, 0) | 1]),
        "1 000000000000000f bad 0"
    );
}

#[test]
fn a_thread_looks_at_the_same_word_before() {
    let thread = text("a @ (F == past(F), G == past(G)) || !a");
    let start = word(2, 2) | 1;
    assert_eq!(
        last_line(&thread, &[start, word(2, 9), word(1, 9)]),
        "clean 3"
    );
    assert_eq!(
        last_line(&thread, &[start, word(2, 9), word(1, 2)]),
        "2 0000000000000042 bad 0"
    );
}

#[test]
fn literals_that_no_two_words_meet_never_hold() {
    let never = text("a == past(a) & a || !a & F == 1 || !a & F == 0");
    assert_eq!(last_line(&never, &[1]), "0 0000000000000001 bad 0");
    assert_eq!(last_line(&never, &[0, 1]), "1 0000000000000001 bad 0");
}

#[test]
fn a_refused_call_leaves_the_word_before() {
    let program = program("a || !a & F == past(F)");
    let mut watch = Watch::new(&program);
    let stray = 1 << 9 | word(4, 0);
    assert!(matches!(watch.take(stray).answer, Answer::Refused(r) if r.number() == 15));
    assert_eq!(watch.word_before(), 0);
    assert_eq!(watch.take(word(0, 1)).answer, Answer::Ok);
    assert_eq!(watch.take(word(5, 0) | 1).answer, Answer::Ok);
    assert!(matches!(watch.take(stray).answer, Answer::Refused(r) if r.number() == 15));
    assert_eq!(watch.word_before(), word(5, 0) | 1);
    assert_eq!(watch.take(word(5, 7)).answer, Answer::Ok);
    assert_eq!(watch.take(word(4, 7)).answer, Answer::Bad(0));
}

#[test]
fn a_bad_call_leaves_the_word_before() {
    let program = program("F == past(F)");
    let mut watch = Watch::new(&program);
    assert_eq!(watch.take(word(0, 3)).answer, Answer::Ok);
    assert_eq!(watch.take(word(1, 4)).answer, Answer::Bad(0));
    assert_eq!(watch.word_before(), word(0, 3));
    assert!(matches!(watch.take(word(0, 3)).answer, Answer::Refused(r) if r.number() == 16));
    assert_eq!(watch.word_before(), word(0, 3));
}

#[test]
fn all_monitors_look_at_the_same_word_before() {
    let text = "input a; input b; p -> a || !a; q -> b == past(b); r -> a == past(a); \
                monitor p, q, r;";
    assert_eq!(last_line(text, &[0, 0]), "clean 2");
    assert_eq!(last_line(text, &[0, 1]), "1 0000000000000001 bad 2");
    assert_eq!(last_line(text, &[0, 3]), "1 0000000000000003 bad 1");
}

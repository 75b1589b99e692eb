//! The specification's sample sheet, its proving rows and its misreadings.

mod common;

use common::{abc, counts, last_line, refused_at_letter, sheet};

#[test]
fn the_sample_sheet() {
    let text =
        b"input SCAN;\ninput CUT;\nline -> SCAN @ (CUT || !CUT, CUT) || !SCAN;\nmonitor line;\n";
    let expected = "rows 9 letters 5\n\
                    0 0000000000000001 ok\n\
                    1 0000000000000000 ok\n\
                    2 0000000000000000 bad 0\n\
                    met 0 0 1\n\
                    met 0 1 0\n\
                    met 0 2 1\n\
                    met 0 3 0\n\
                    met 0 4 1\n\
                    total 3\n";
    let sheet = second::sheet(text, &[0x01, 0x01, 0x01, 0x00, 0x00]);
    assert_eq!(String::from_utf8_lossy(&sheet), expected);
}

#[test]
fn hollow_rows() {
    refused_at_letter(10, 0, 0, &abc("(a*)*"));
    refused_at_letter(10, 0, 0, &abc("a*"));
}

#[test]
fn a_then_a_is_no_fork() {
    assert_eq!(counts(&abc("a, a")), (3, 2));
    assert_eq!(
        last_line(&abc("a, a"), &[1, 3, 5, 7, 2]),
        "4 0000000000000002 bad 0"
    );
}

#[test]
fn fork_rows() {
    refused_at_letter(12, 0, 0, &abc("a*, a"));
    refused_at_letter(12, 0, 0, &abc("a, b || a, c"));
}

#[test]
fn open_end_and_impossible_rows() {
    refused_at_letter(11, 0, 1, &abc("a @ (b, c*)"));
    refused_at_letter(9, 0, 0, &abc("a & !a"));
}

#[test]
fn pipeline_rows() {
    // Both starts require a letter at 2, whatever the word.
    assert_eq!(
        last_line(&abc("a @ (b, c)"), &[1, 3, 7]),
        "2 0000000000000007 bad 0"
    );
    assert_eq!(
        last_line(&abc("a @ (b, c)"), &[1, 3, 3]),
        "2 0000000000000003 bad 0"
    );
}

#[test]
fn store_rows() {
    let text =
        "input V; input D[7:0]; internal h[7:0] = 0; p -> V {h <- D;}, V & D == h; monitor p;";
    assert_eq!(last_line(text, &[11, 11]), "clean 2");
    assert_eq!(last_line(text, &[11, 13]), "1 000000000000000d bad 0");
}

#[test]
fn no_words_fit_each_monitor() {
    let alone = "clean 0\nmet 0 0 0\ntotal 0\n";
    let two = "clean 0\nmet 0 0 0\nmet 0 1 0\ntotal 0\n";
    for (expression, counts, end) in [
        ("a", "rows 1 letters 1\n", alone),
        ("a, b", "rows 3 letters 2\n", two),
        ("a @ b", "rows 3 letters 2\n", two),
        ("a || !a", "rows 3 letters 2\n", two),
        ("a*, b & !a", "rows 4 letters 2\n", two),
    ] {
        let expected = format!("{counts}{end}");
        assert_eq!(sheet(&abc(expression), &[]), expected, "{expression}");
    }
}

#[test]
fn doubled_productions() {
    let mut text = String::from("input a; p0 -> a; ");
    for number in 1..=8 {
        text += &format!("p{number} -> p{0}, p{0}; ", number - 1);
    }
    assert_eq!(counts(&format!("{text} monitor p8;")), (511, 256));
    refused_at_letter(8, 0, 0, &format!("{text} q -> p8, a; monitor q;"));
}

#[test]
fn misreading_a_left_operand_may_go_on() {
    let text = abc("(a, b*) @ c, !b");
    assert_eq!(counts(&text), (8, 4));
    assert_eq!(last_line(&text, &[1, 2, 2, 4]), "clean 4");
    assert_eq!(last_line(&text, &[1, 2, 2, 0]), "3 0000000000000000 bad 0");
    // With c and b at once it goes on: no thread, so no c is asked for later.
    assert_eq!(last_line(&text, &[1, 6, 4, 1, 4]), "clean 5");
    assert_eq!(last_line(&text, &[1, 6, 0]), "2 0000000000000000 bad 0");
}

#[test]
fn misreading_a_test_does_not_see_a_write_of_its_own_tick() {
    let within = "input V; input D; internal s = 0; p -> V & D == s {s <- D;} || !V; monitor p;";
    assert_eq!(last_line(within, &[1, 3]), "1 0000000000000003 bad 0");
    // One monitor writes, the other one tests: both see the value before.
    let across = "input D; internal s = 0; w -> D {s <- D;} || !D {s <- D;}; \
                  t -> D == s, D == s; monitor w, t;";
    assert_eq!(last_line(across, &[0, 0, 1]), "2 0000000000000001 bad 1");
    let reversed = across.replace("monitor w, t", "monitor t, w");
    assert_eq!(last_line(&reversed, &[0, 0, 1]), "2 0000000000000001 bad 0");
}

#[test]
fn misreading_the_older_start_of_a_thread_is_not_dropped() {
    let text = abc("a @ (!b, !c) || !a");
    // Called for at 0 and 1: at 2 the older start requires !c, the younger !b.
    assert_eq!(last_line(&text, &[1, 1, 5]), "2 0000000000000005 bad 0");
    assert_eq!(last_line(&text, &[1, 1, 0]), "2 0000000000000000 bad 0");
    // Called for at 0 and 2: at 3 the older one is over.
    assert_eq!(last_line(&text, &[1, 0, 5]), "2 0000000000000005 bad 0");
    assert_eq!(
        last_line(&text, &[1, 0, 1, 0, 4]),
        "4 0000000000000004 bad 0"
    );
    assert_eq!(last_line(&text, &[1, 0, 1, 4, 0]), "clean 5");
}

#[test]
fn two_threads_can_start_at_the_same_tick() {
    // Both threads of the pipeline are copies of one production.
    let text = "input a; input b; t -> b, !b; p -> (a @ t) @ t; monitor p;";
    assert_eq!(last_line(text, &[1, 3, 1]), "2 0000000000000001 bad 0");
    assert_eq!(last_line(text, &[1, 2]), "1 0000000000000002 bad 0");
    let once = "input a; input b; t -> b, !b; p -> a, (!a @ t), a, !a; monitor p;";
    assert_eq!(last_line(once, &[1, 0, 3, 0, 1]), "clean 5");
}

#[test]
fn the_later_write_stands() {
    let text = |monitors: &str| {
        format!(
            "input a; input D[3:0]; internal s[3:0] = 0; \
             p -> a {{s <- 1; s <- 2;}} || !a; \
             q -> a {{s <- D;}} || !a & D == s; \
             r -> a @ (a {{s <- 9;}} || !a) || !a; \
             monitor {monitors};"
        )
    };
    // D is 7 while writing. The later monitor's write stands.
    assert_eq!(last_line(&text("p, q"), &[0xf, 0xe]), "clean 2");
    assert_eq!(last_line(&text("q, p"), &[0xf, 0x4]), "clean 2");
    assert_eq!(
        last_line(&text("q, p"), &[0xf, 0xe]),
        "1 000000000000000e bad 0"
    );
    // The thread of r writes at tick 1, after the writes of p and q.
    assert_eq!(last_line(&text("q, p, r"), &[0xf, 0xf, 0x12]), "clean 3");
    assert_eq!(last_line(&text("r, q"), &[0xf, 0xf, 0xe]), "clean 3");
}

#[test]
fn the_later_letter_of_one_monitor_stands() {
    // At tick 1 letter 0 (of the monitor) and letter 1 (of the thread) are met.
    let text = "input a; internal s[1:0] = 0; \
                p -> (a {s <- 1;} @ (a {s <- 2;} || !a)) || !a; \
                q -> a || !a & s == 2; monitor p, q;";
    assert_eq!(last_line(text, &[1, 1, 0]), "clean 3");
    assert_eq!(last_line(text, &[1, 0]), "1 0000000000000000 bad 1");
}

#[test]
fn the_lowest_monitor_that_no_longer_fits_is_named() {
    let text = "input a; input b; p -> a; q -> b; monitor p, q, p;";
    assert_eq!(last_line(text, &[3, 0]), "1 0000000000000000 bad 0");
    assert_eq!(last_line(text, &[3, 1]), "1 0000000000000001 bad 1");
    let twice = "input a; input b; p -> a; q -> b; monitor q, p, p;";
    assert_eq!(last_line(twice, &[2]), "0 0000000000000002 bad 1");
}

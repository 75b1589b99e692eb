//! Each refusal of a text, with its place: numbers 1 to 12.

mod common;

use common::{abc, counts, refusal, refused_at_letter, refused_at_mark};
use second::Place;

/// Declarations to set the marked expressions of the tests behind.
const DECLARED: &str = "input a; input D[3:0]; input G[2:0]; \
    internal s = 0; internal t[3:0] = 5; \
    define k = a & D == 3; define one = t == 5; define two = one & D == t; \
    define three = two & one; q -> a; ";

/// Checks an expression with a `^` before the token at fault.
fn expression_refused(number: u8, marked: &str) {
    refused_at_mark(number, &format!("{DECLARED}p -> {marked}; monitor p;"));
}

fn expression_accepted(expression: &str) {
    counts(&format!("{DECLARED}p -> {expression}; monitor p;"));
}

#[test]
fn number_1_comes_first_with_place_0() {
    let refusal = refusal(&[0xff; 16_385]);
    assert_eq!((refusal.number(), refusal.place), (1, Place::Byte(0)));
}

#[test]
fn number_2_no_token() {
    refused_at_mark(2, "^|");
    refused_at_mark(2, "input ^abcdefghijklmnopq;");
    refused_at_mark(2, "internal s = ^18446744073709551616;");
    refused_at_mark(2, "input a ^#");
    refused_at_mark(2, "input a; p -> a ^- a;");
    expression_refused(2, "a ^| a");
    expression_refused(2, "a {s ^< 1;}");
    // Lower than 3, though the grammar would not allow such a token here.
    refused_at_mark(2, "^abcdefghijklmnopq_abcdefghijk;");
    refused_at_mark(2, "input ^99999999999999999999;");
    refused_at_mark(2, "input a; p -> a; monitor p; ^\u{7f}");
}

#[test]
fn number_2_every_stray_byte() {
    for byte in 0..=255u8 {
        let text = [b"input a; p -> a ".as_slice(), &[byte], b" ; monitor p;"].concat();
        let alone_no_token =
            !byte.is_ascii_alphanumeric() && !b"_ \t\r\n;,@*&!()[]{}:=".contains(&byte);
        match second::open(&text) {
            Err(refusal) => assert_eq!(refusal.number() == 2, alone_no_token, "byte {byte}"),
            Ok(_) => assert!(b" \t\r\n".contains(&byte), "byte {byte}"),
        }
    }
}

#[test]
fn number_3_statements() {
    refused_at_mark(3, "^");
    refused_at_mark(3, " \t\r\n^");
    refused_at_mark(3, "input a;^");
    refused_at_mark(3, "input a; ^;");
    refused_at_mark(3, "^-> a;");
    refused_at_mark(3, "input ^input;");
    refused_at_mark(3, "input ^7;");
    refused_at_mark(3, "input a^");
    refused_at_mark(3, "input a ^input b;");
    refused_at_mark(3, "input a[^b:0];");
    refused_at_mark(3, "input a[3^;");
    refused_at_mark(3, "input a[3:^1];");
    refused_at_mark(3, "input a[3:0^;");
    refused_at_mark(3, "input a[3:00]^");
    refused_at_mark(3, "internal s^;");
    refused_at_mark(3, "internal s ^== 1;");
    refused_at_mark(3, "internal s = ^s;");
    refused_at_mark(3, "define k ^-> a;");
    refused_at_mark(3, "define k = ^;");
    refused_at_mark(3, "input a; define k = a^, a;");
    refused_at_mark(3, "input a; define k = a ^{s <- 1;};");
    refused_at_mark(3, "p ^= a;");
    refused_at_mark(3, "internal ^-> a;");
    refused_at_mark(3, "input a; p -> a; monitor ^;");
    refused_at_mark(3, "input a; p -> a; monitor p ^p;");
    refused_at_mark(3, "input a; p -> a; monitor p,^;");
    refused_at_mark(3, "input a; p -> a; monitor p^");
    refused_at_mark(3, "input a; p -> a; monitor p; ^input b;");
    refused_at_mark(3, "input a; p -> a; monitor p; ^;");
}

#[test]
fn number_3_expressions() {
    expression_refused(3, "^");
    expression_refused(3, "^5");
    expression_refused(3, "^* a");
    expression_refused(3, "a*^*");
    expression_refused(3, "a @ a ^@ a");
    expression_refused(3, "a @^");
    expression_refused(3, "a,^");
    expression_refused(3, "a ||^");
    expression_refused(3, "a^)");
    expression_refused(3, "(^)");
    expression_refused(3, "(a^");
    expression_refused(3, "(a) ^& a");
    expression_refused(3, "(a) ^{s <- 1;}");
    expression_refused(3, "q ^& a");
    expression_refused(3, "q ^{s <- 1;}");
    expression_refused(3, "q ^q");
    expression_refused(3, "a ^= 1");
    expression_accepted("q*, !a");
    expression_accepted("(a @ a) @ a");
    expression_accepted("a @ (a @ a)");
}

#[test]
fn number_3_literals_and_writes() {
    expression_refused(3, "!^!a");
    expression_refused(3, "!^(a)");
    expression_refused(3, "a & ^(a)");
    expression_refused(3, "!a ^== 1");
    expression_refused(3, "!D ^== 1");
    expression_refused(3, "D[0] ^== 1");
    expression_refused(3, "D[^a]");
    expression_refused(3, "D[1^");
    expression_refused(3, "a == ^!a");
    expression_refused(3, "a == ^input");
    expression_refused(3, "s^");
    expression_refused(3, "s^[0]");
    expression_refused(3, "s == ^a");
    expression_refused(3, "s == ^s");
    expression_refused(3, "s == ^undeclared");
    expression_refused(3, "k ^== 1");
    expression_refused(3, "k^[0]");
    expression_refused(3, "a {^}");
    expression_refused(3, "a {s ^= 1;}");
    expression_refused(3, "a {s^[0] <- 1;}");
    expression_refused(3, "a {s <- ^!a;}");
    expression_refused(3, "a {s <- 1^}");
    expression_refused(3, "a {s <- a ^, s <- a;}");
    expression_refused(3, "a {t <- D^[0];}");
    expression_refused(3, "a {s <- 1;^;}");
    expression_refused(3, "a {s <- 1;} ^{s <- 1;}");
    expression_refused(3, "a {s <- 1;} ^& a");
}

#[test]
fn number_4() {
    expression_refused(4, "^zz");
    expression_refused(4, "^p");
    expression_refused(4, "!^zz");
    expression_refused(4, "!^s == 0");
    expression_refused(4, "!^k");
    expression_refused(4, "!^q");
    expression_refused(4, "a & ^q");
    expression_refused(4, "a & !^q");
    expression_refused(4, "D == ^zz");
    expression_refused(4, "D == ^D");
    expression_refused(4, "D == ^k");
    expression_refused(4, "D == ^q");
    expression_refused(4, "a {^a <- 1;}");
    expression_refused(4, "a {^k <- 1;}");
    expression_refused(4, "a {^zz <- 1;}");
    expression_refused(4, "a {t <- ^t;}");
    expression_refused(4, "a {t <- ^zz;}");
    refused_at_mark(4, "monitor ^p;");
    refused_at_mark(4, "input a; monitor ^a;");
    refused_at_mark(4, "input a; p -> a; monitor p, ^a;");
    refused_at_mark(4, "input a; define d = ^d;");
    refused_at_mark(4, "input a; p -> a; define d = ^p;");
    refused_at_mark(4, "input a; p -> a, ^p2; p2 -> a;");
}

#[test]
fn number_5() {
    refused_at_mark(5, "input a; input ^a;");
    refused_at_mark(5, "input a; internal ^a = 0;");
    refused_at_mark(5, "input a; define ^a = a;");
    refused_at_mark(5, "input a; ^a -> a;");
    refused_at_mark(5, "input a; p -> a; ^p -> a;");
    refused_at_mark(5, "input a; p -> a; ^p;");
    refused_at_mark(5, "input a[63:0]; input ^a;");
}

#[test]
fn number_6_declarations() {
    refused_at_mark(6, "input a[^64:0];");
    refused_at_mark(6, "input a[^18446744073709551615:0];");
    refused_at_mark(6, "internal s[^64:0] = 0;");
    refused_at_mark(6, "internal s[^64:1] = 0;");
    refused_at_mark(6, "internal s = ^2;");
    refused_at_mark(6, "internal s[3:0] = ^16;");
    refused_at_mark(6, "input a[63:0]; input ^b;");
    refused_at_mark(6, "input a[63:0]; input ^b[0:0];");
    refused_at_mark(6, "input a; input b[^63:0];");
    refused_at_mark(6, "input a[61:0]; input b; input c[^1:0];");
    counts("input a[61:0]; input b; input c[0:0]; internal s[63:0] = 18446744073709551615; p -> c; monitor p;");
}

#[test]
fn number_6_literals_and_writes() {
    expression_refused(6, "^D");
    expression_refused(6, "!^D");
    expression_refused(6, "a & ^D, a");
    expression_refused(6, "a & ^D & a");
    expression_refused(6, "a, ^D = 1");
    expression_refused(6, "(a @ ^D {s <- 1;})");
    expression_refused(6, "D[^4]");
    expression_refused(6, "!D[^4]");
    expression_refused(6, "a[^1]");
    expression_refused(6, "a[^18446744073709551615]");
    expression_refused(6, "D == ^16");
    expression_refused(6, "a == ^2");
    expression_refused(6, "D == ^s");
    expression_refused(6, "a == ^t");
    expression_refused(6, "G == ^t");
    expression_refused(6, "t == ^16");
    expression_refused(6, "s == ^2");
    expression_refused(6, "a {s <- ^2;}");
    expression_refused(6, "a {t <- ^16;}");
    expression_refused(6, "a {t <- ^G;}");
    expression_refused(6, "a {t <- ^a;}");
    expression_refused(6, "a {s <- ^D[0];}");
    refused_at_mark(6, "input D[1:0]; define k = ^D;");
    expression_accepted("a[0] & D[3] & !D[2] & D == 8 & a == 1");
    expression_accepted("a == s & D == t {s <- a; t <- D;}");
}

#[test]
fn a_bare_wide_wire_needs_the_next_token() {
    // At the end of the text, and before what is no token.
    refused_at_mark(6, "input D[1:0]; p -> ^D");
    refused_at_mark(6, "input D[1:0]; p -> ^D | D");
    refused_at_mark(6, "input D[1:0]; p -> !^D");
    // With `[` or `==` behind it, it is not at fault.
    refused_at_mark(3, "input D[1:0]; p -> D ==^");
    refused_at_mark(3, "input D[1:0]; p -> D [^");
}

#[test]
fn number_7_names() {
    let names = |count: usize| -> String {
        (0..count)
            .map(|number| format!("internal_{number} -> a; "))
            .collect()
    };
    let behind = "monitor a_last;";
    counts(&format!("input a; {}a_last -> a; {behind}", names(126)));
    refused_at_mark(7, &format!("input a; {}^a_last -> a; {behind}", names(127)));
    refused_at_mark(7, &format!("input a; {}input ^b; {behind}", names(127)));
    refused_at_mark(
        7,
        &format!("input a; {}define ^b = a; {behind}", names(127)),
    );
    refused_at_mark(
        7,
        &format!("input a; {}internal ^b = 0; {behind}", names(127)),
    );
    // The lower numbers first.
    refused_at_mark(5, &format!("input a; {}^a -> a; {behind}", names(127)));
    refused_at_mark(
        6,
        &format!(
            "input a[63:0]; p -> a[0]; {}input ^b;",
            names(126).replace("-> a", "-> p")
        ),
    );
}

#[test]
fn number_7_stores_and_monitors() {
    let stores: String = (0..16)
        .map(|number| format!("internal s{number} = 0; "))
        .collect();
    counts(&format!("{stores} p -> s15 == 0; monitor p;"));
    refused_at_mark(7, &format!("{stores} internal ^s16 = 0;"));
    refused_at_mark(5, &format!("{stores} internal ^s15 = 0;"));

    let listed = vec!["p"; 32].join(", ");
    assert_eq!(
        counts(&format!("input a; p -> a; monitor {listed};")),
        (32, 32)
    );
    refused_at_mark(7, &format!("input a; p -> a; monitor {listed}, ^p;"));
    refused_at_mark(4, &format!("input a; p -> a; monitor {listed}, ^a;"));
}

#[test]
fn number_7_parentheses() {
    let nested = |depth: usize| format!("{}a{}", "(".repeat(depth), ")".repeat(depth));
    expression_accepted(&nested(32));
    expression_accepted(&format!(
        "{0}, {0} || !a",
        nested(32).replace("(a)", "(a, a)")
    ));
    expression_refused(7, &format!("{}^{}", "(".repeat(32), nested(1)));
    expression_refused(7, &format!("a, {}a, ^(a", "(".repeat(32)));
    expression_refused(3, &format!("{}a ^(a", "(".repeat(32)));
}

#[test]
fn number_7_store_tests_and_writes() {
    expression_accepted("two & a");
    expression_accepted("t == 5 & one");
    expression_accepted("t == 5 & t == 5");
    expression_refused(7, "^three");
    expression_refused(7, "two & ^one");
    expression_refused(7, "one & ^two");
    expression_refused(7, "two & a & ^t == 5");
    expression_refused(7, "two & D == ^t");
    expression_refused(7, "s == 0 & t == 0 & ^s");
    // The lower numbers first.
    expression_refused(6, "two & D == ^s");
    expression_refused(4, "two & !^s");
    // Each letter counts for itself.
    expression_accepted("two, two, t == 1 & s == 1");

    expression_accepted("a {s <- 1; s <- 0;}");
    expression_refused(7, "a {s <- 1; s <- 0; ^s <- 1;}");
    expression_refused(4, "a {s <- 1; s <- 0; ^zz <- 1;}");
}

#[test]
fn number_8_names_the_first_monitor_passing_the_limit() {
    let run = |letters: usize| vec!["a"; letters].join(",");
    let text = |monitors: &str| {
        format!(
            "input a; p -> {}; q -> {}; one -> a; monitor {monitors};",
            run(128),
            run(257)
        )
    };
    assert_eq!(counts(&text("p, p")), (510, 256));
    refused_at_letter(8, 2, 0, &text("p, p, one"));
    refused_at_letter(8, 2, 0, &text("p, p, p, one"));
    refused_at_letter(8, 0, 0, &text("q"));
    refused_at_letter(8, 1, 0, &text("one, q"));
    // Before 9 to 12 of an earlier monitor, but not before 2 to 7.
    let faulty = format!("input a; bad -> a & !a; hollow -> a*; q -> {}; ", run(257));
    refused_at_letter(8, 1, 0, &format!("{faulty} monitor bad, q;"));
    refused_at_letter(9, 0, 0, &format!("{faulty} monitor bad, hollow;"));
    refused_at_mark(3, &format!("{faulty} monitor q; ^;"));
}

#[test]
fn number_9() {
    let field = |expression: &str| {
        format!("input a; input D[3:0]; internal t[3:0] = 0; define k = D == 1; p -> {expression}; monitor p;")
    };
    refused_at_letter(9, 0, 1, &field("a, D == 1 & D == 2, a & !a"));
    refused_at_letter(9, 0, 0, &field("D == 1 & !D[0]"));
    refused_at_letter(9, 0, 0, &field("k & D[3]"));
    refused_at_letter(9, 0, 2, &field("a, a @ (a & a == 0)"));
    counts(&field("D == 1 & D[0] & !D[1] & k"));
    // Store literals do not count.
    counts(&field("t == 1 & t == 2"));
    counts(&field("D == t & D == 1"));
    // 9 before 10, whatever the letters.
    refused_at_letter(9, 0, 1, &field("a*, (a & !a)*"));
}

#[test]
fn number_10() {
    refused_at_letter(10, 0, 1, &abc("(a @ b*), c"));
    refused_at_letter(10, 0, 1, &abc("a @ (b* || c*)"));
    refused_at_letter(10, 0, 0, &abc("(a* || b) @ c"));
    refused_at_letter(10, 0, 1, &abc("a, (b*, c*)*"));
    refused_at_letter(10, 0, 0, &abc("a || b*"));
    refused_at_letter(10, 0, 0, &abc("a*, b*"));
    refused_at_letter(10, 0, 0, &abc("a || (b*)*"));
    refused_at_letter(10, 0, 1, &abc("a, (b*)*"));
    refused_at_letter(10, 0, 2, &abc("a @ (b @ (c*))"));
    // The lowest of several; the part's first letter, not the hollow one's.
    refused_at_letter(10, 0, 1, &abc("a, (b || (c*)*)*"));
    refused_at_letter(10, 0, 1, &abc("a @ b*, (c*)*"));
    // 10 before 11 and 12.
    refused_at_letter(10, 0, 4, &abc("a @ (b, c*), b @ c*"));
    refused_at_letter(10, 0, 2, &abc("a || b, (c*)*"));
}

#[test]
fn number_11() {
    refused_at_letter(11, 0, 2, &abc("a @ (b @ (c, a*))"));
    refused_at_letter(11, 0, 3, &abc("a, b @ (b, (c, b*))"));
    refused_at_letter(11, 0, 1, &abc("a @ (b, (c* || a*))"));
    refused_at_letter(11, 0, 2, &abc("a @ (b, c, (c, !c)*)"));
    // A letter that ends no thread may be followed.
    counts(&abc("a @ (b*, !b)"));
    counts(&abc("(a @ (b*, !b))*, !a"));
    // 11 before 12, and before the faults of a later monitor.
    refused_at_letter(11, 0, 3, &abc("(a || b) @ (a, (b, c*))"));
    let two = "input a; input b; p -> a @ (b, a*); q -> a*; r -> a; monitor r, p, q;";
    refused_at_letter(11, 1, 1, two);
}

#[test]
fn number_12() {
    refused_at_letter(12, 0, 0, &abc("a || b, c"));
    refused_at_letter(12, 0, 1, &abc("a @ (b || c)"));
    refused_at_letter(12, 0, 1, &abc("c, (a || b), (a || b)"));
    // The last letters of a monitor are followed by its first ones.
    refused_at_letter(12, 0, 0, &abc("a, b*"));
    counts(&abc("a, (b & !a)*"));
    // Not those of a thread.
    counts(&abc("a @ (b, b)"));
    // After the last letters of a left operand comes what follows the `@`.
    refused_at_letter(12, 0, 1, &abc("(a, b*) @ c, b"));
    counts(&abc("(a, b*) @ b, !b"));
    // Past parts that can be left out.
    refused_at_letter(12, 0, 1, &abc("!a, (a & b)*, (a & !b)*, a"));
    // Store literals do not count.
    let store = "input a; internal s = 0; p -> a & s == 0 || a & s == 1; monitor p;";
    refused_at_letter(12, 0, 0, store);
    // Fields part words as bits do.
    counts("input D[1:0]; p -> D == 0 || D == 1 || D[1] & D[0] || !D[0] & D[1]; monitor p;");
    refused_at_letter(
        12,
        0,
        1,
        "input D[1:0]; p -> D == 0 || D == 1 || D[1] || D[0]; monitor p;",
    );
}

#[test]
fn productions_no_monitor_uses_are_not_judged_by_shape() {
    counts("input a; x -> a & !a; y -> a*; z -> a @ (a, a*); f -> a || a; p -> a; monitor p;");
}

//! Texts at the limits and far beyond them.

mod common;

use common::{counts, last_line, refusal, refused_at_letter, sheet};
use second::{Answer, Place, Reason, Refusal, Watch};

#[test]
fn text_bytes() {
    let mut text = b"input a; p -> a; monitor p;".to_vec();
    text.resize(16_384, b' ');
    assert!(second::open(&text).is_ok());
    text.push(b' ');
    assert_eq!(
        refusal(&text),
        Refusal {
            reason: Reason::Overlong,
            place: Place::Byte(0)
        }
    );
}

#[test]
fn all_64_wires() {
    let inputs: String = (0..64).map(|number| format!("input w{number}; ")).collect();
    let text = format!("{inputs} p -> w63 & !w0 || w0 & !w63; monitor p;");
    assert_eq!(
        last_line(&text, &[1 << 63, 1, u64::MAX]),
        "2 ffffffffffffffff bad 0"
    );
    assert_eq!(last_line(&text, &[!1, u64::MAX >> 1]), "clean 2");
}

#[test]
fn no_wires_at_all() {
    let text = "internal s = 0; p -> s == 0; monitor p;";
    assert_eq!(last_line(text, &[0, 0]), "clean 2");
    assert_eq!(last_line(text, &[0, 1]), "refused 15 1");
}

#[test]
fn letters_by_doubling() {
    let doubled = |times: usize| {
        let mut text = String::from("input a; p0 -> a; ");
        for number in 1..=times {
            text += &format!("p{number} -> p{0}, p{0}; ", number - 1);
        }
        text
    };
    assert_eq!(counts(&format!("{} monitor p8;", doubled(8))), (511, 256));
    refused_at_letter(8, 0, 0, &format!("{} monitor p9;", doubled(9)));
    refused_at_letter(8, 1, 0, &format!("{} monitor p8, p0;", doubled(8)));
    // 2^100 letters, in the middle of the list of monitors.
    refused_at_letter(8, 1, 0, &format!("{} monitor p3, p100, p99;", doubled(100)));
    // Unless no monitor asks for them.
    assert_eq!(counts(&format!("{} monitor p1, p0;", doubled(100))), (4, 3));
}

#[test]
fn long_chains_of_each_operator() {
    let mut inputs = String::from("input D[7:0]; ");
    let values = |joint: &str| {
        (0..256)
            .map(|value| format!("D=={value}"))
            .collect::<Vec<_>>()
            .join(joint)
    };
    inputs += "p -> ";
    let choice = format!("{inputs}{}; monitor p;", values("||"));
    assert_eq!(counts(&choice), (511, 256));
    assert_eq!(last_line(&choice, &[255, 0, 17, 254]), "clean 4");
    let sequence = format!("{inputs}{}; monitor p;", values(","));
    assert_eq!(counts(&sequence), (511, 256));
    let words: Vec<u64> = (0..600).map(|tick| tick % 256).collect();
    assert_eq!(last_line(&sequence, &words), "clean 600");
    let over = format!("{inputs}{}||D==0; monitor p;", values(","));
    refused_at_letter(8, 0, 0, &over);
}

#[test]
fn thousands_of_letters_in_a_production_no_monitor_uses() {
    let text = format!("input a; p -> {}a; q -> a; monitor q;", "a,".repeat(8_000));
    assert_eq!(counts(&text), (1, 1));
}

/// Productions in a chain, each wrapping the one before it 32 times.
fn wrapped_chain(productions: usize, open: &str, close: &str) -> String {
    let mut text = String::from("input a; p0 -> a; ");
    for number in 1..=productions {
        let (open, close) = (open.repeat(32), close.repeat(32));
        text += &format!("p{number}->{open}p{}{close};", number - 1);
    }
    text
}

#[test]
fn a_chain_of_productions_each_in_32_parentheses() {
    let text = format!("{} monitor p120;", wrapped_chain(120, "(", ")"));
    assert_eq!(counts(&text), (1, 1));
    assert_eq!(last_line(&text, &[1, 1, 0]), "2 0000000000000000 bad 0");
}

#[test]
fn a_chain_of_productions_each_in_32_stars() {
    let chain = wrapped_chain(120, "(", ")*");
    refused_at_letter(10, 0, 0, &format!("{chain} monitor p120;"));
    // Three thousand rows for each of 256 letters.
    let copies = vec!["p120"; 255].join(",");
    refused_at_letter(10, 0, 1, &format!("{chain} q -> a,{copies}; monitor q;"));
    refused_at_letter(
        9,
        0,
        255,
        &format!("{chain} q -> {copies}, a & !a; monitor q;"),
    );
    refused_at_letter(8, 0, 0, &format!("{chain} q -> {copies}, a, a; monitor q;"));
}

#[test]
fn a_chain_of_productions_with_a_letter_at_each_star() {
    // Nested far deeper than parentheses alone allow.
    let mut deep = String::from("input D[7:0]; p0 -> D == 0; ");
    for number in 1..=84 {
        let value = number * 3;
        let (one, two, three) = (value - 2, value - 1, value);
        deep += &format!(
            "p{number}->((p{},D=={one})*,D=={two})*,D=={three};",
            number - 1
        );
    }
    deep += "monitor p84;";
    assert_eq!(counts(&deep), (253 + 252 + 168, 253));
    assert_eq!(
        last_line(&deep, &[252, 251, 250]),
        "2 00000000000000fa bad 0"
    );
    assert_eq!(
        last_line(&deep, &[252, 251, 252, 0, 1, 0, 1, 2, 3, 4, 5]),
        "clean 11"
    );
    assert_eq!(
        last_line(&deep, &[252, 251, 252, 0, 1, 5]),
        "5 0000000000000005 bad 0"
    );
}

#[test]
fn starred_letters_255_and_one_more() {
    let starred: Vec<String> = (1..256).map(|value| format!("D=={value}*")).collect();
    let text = format!(
        "input D[7:0]; p -> {}, D == 0; monitor p;",
        starred.join(",")
    );
    assert_eq!(counts(&text), (256 + 255 + 255, 256));
    assert_eq!(
        last_line(&text, &[1, 1, 7, 200, 255, 255, 0, 0, 9, 0]),
        "clean 10"
    );
    assert_eq!(last_line(&text, &[1, 7, 6]), "2 0000000000000006 bad 0");
    // Without the letter behind them the monitor is hollow.
    let hollow = text.replace(", D == 0", "");
    refused_at_letter(10, 0, 0, &hollow);
}

/// Stages `(x*||y*)` joined by `,`, each of which can be left out two ways.
fn stages(count: usize) -> String {
    let stages: Vec<String> = (0..count)
        .map(|stage| format!("(D=={}*||D=={}*)", 2 * stage, 2 * stage + 1))
        .collect();
    format!(
        "input D[7:0]; p -> {}, D == 255; monitor p;",
        stages.join(",")
    )
}

#[test]
fn a_hundred_stages_that_can_be_left_out() {
    let text = stages(100);
    assert_eq!(counts(&text), (201 + 200 + 100 + 100, 201));
    assert_eq!(last_line(&text, &[255, 0, 0, 150, 199, 255, 3]), "clean 7");
    assert_eq!(last_line(&text, &[0, 150, 149]), "2 0000000000000095 bad 0");
    assert_eq!(last_line(&text, &[0, 150, 151]), "2 0000000000000097 bad 0");
}

#[test]
fn many_threads_started_at_once() {
    // 85 threads of three letters and two ways each: 2^85 together.
    let mut text = String::from("input a; input b; p0 -> a; ");
    for number in 1..=85 {
        text += &format!("p{number} -> p{} @ (b || !b, b); ", number - 1);
    }
    text += "monitor p85;";
    assert_eq!(counts(&text), (256 + 255, 256));
    assert_eq!(last_line(&text, &[1, 3, 3, 3, 1]), "clean 5");
    assert_eq!(last_line(&text, &[1, 3, 1, 1]), "3 0000000000000001 bad 0");
    // All of them have another letter to come, and all start again.
    assert_eq!(last_line(&text, &[1, 3, 1, 3]), "3 0000000000000003 bad 0");
}

#[test]
fn ticks_1_000_000_and_one_more() {
    let program = second::open(b"input a; p -> a; monitor p;").ok().unwrap();
    let mut watch = Watch::new(&program);
    for tick in 0..1_000_000 {
        assert_eq!(watch.take(1).answer, Answer::Ok, "tick {tick}");
    }
    assert_eq!(watch.ticks(), 1_000_000);
    let full = Answer::Refused(Refusal {
        reason: Reason::Full,
        place: Place::Tick(1_000_000),
    });
    // Full comes before stray, and even a word that does not fit is not judged.
    for word in [1, 0, 2] {
        assert_eq!(watch.take(word).answer, full);
    }
}

#[test]
fn sheets_of_1_000_000_ticks_and_one_more() {
    let text = "input a; p -> a || !a; monitor p;";
    let mut trace = vec![0; 1_000_000];
    let end = |trace: &[u8]| {
        let sheet = String::from_utf8(second::sheet(text.as_bytes(), trace)).unwrap();
        let lines: Vec<&str> = sheet.lines().skip(1_000_000).collect();
        lines.join("/")
    };
    assert_eq!(
        end(&trace),
        "999999 0000000000000000 ok/clean 1000000/met 0 0 0/met 0 1 1000000/total 1000000"
    );
    trace.push(0);
    assert_eq!(end(&trace), "999999 0000000000000000 ok/refused 17 1000000");
    // A record that cannot be read gives no word to take.
    *trace.last_mut().unwrap() = 1;
    assert_eq!(end(&trace), "999999 0000000000000000 ok/refused 13 1000000");
}

#[test]
fn a_stopped_watch_says_so_before_all_else() {
    let program = second::open(b"input a; p -> a; monitor p;").ok().unwrap();
    let mut watch = Watch::new(&program);
    let refused = |reason, tick| {
        Answer::Refused(Refusal {
            reason,
            place: Place::Tick(tick),
        })
    };
    assert_eq!(watch.take(2).answer, refused(Reason::Stray, 0));
    assert_eq!(watch.take(1).answer, Answer::Ok);
    assert_eq!(watch.take(3).answer, refused(Reason::Stray, 1));
    assert_eq!(watch.take(0).answer, Answer::Bad(0));
    for word in [1, 0, 2] {
        assert_eq!(watch.take(word).answer, refused(Reason::Stopped, 1));
    }
}

#[test]
fn a_bad_tick_changes_neither_stores_nor_count() {
    let text = b"input a; internal s = 0; p -> a {s <- 1;} || !a {s <- 0;}; q -> !a; monitor p, q;";
    let program = second::open(text).ok().unwrap();
    let mut watch = Watch::new(&program);
    assert_eq!(watch.take(0).answer, Answer::Ok);
    assert_eq!(watch.take(1).answer, Answer::Bad(1));
    assert_eq!((watch.stores(), watch.ticks()), ([0].as_slice(), 1));
}

#[test]
fn a_sheet_has_a_line_for_each_tick() {
    let text = "input D[63:0]; p -> D[0] || !D[0]; monitor p;";
    let expected = "rows 3 letters 2\n\
                    0 0123456789abcdef ok\n\
                    1 ffffffffffffffff ok\n\
                    2 ffffffffffffffff ok\n\
                    clean 3\n\
                    met 0 0 3\n\
                    met 0 1 0\n\
                    total 3\n";
    assert_eq!(
        sheet(text, &[0x0123_4567_89ab_cdef, u64::MAX, u64::MAX]),
        expected
    );
}

//! Totals: at how many ticks each letter was met, and the foot of what is
//! printed, which says so.

mod common;

use common::{abc, cut_foot, foot, sheet, trace, Numbers};
use second::{answer_calls, Answer, Program, Watch};

fn open(text: &str) -> Program {
    second::open(text.as_bytes()).unwrap_or_else(|refusal| panic!("{refusal}: {text}"))
}

/// Checks the foot of a sheet: the totals monitor by monitor, and their sum.
fn totals(text: &str, words: &[u64], expected: &[&[u32]], sum: u32) {
    let sheet = sheet(text, words);
    let (above, below) = cut_foot(&sheet);
    assert_eq!(below.join("\n") + "\n", foot(expected, sum), "{sheet}");
    // Nothing but the lines of these ticks stands above it.
    let clean = above[above.len() - 1].starts_with("clean ");
    assert_eq!(above.len(), 1 + words.len() + usize::from(clean), "{sheet}");
}

/// Checks that this is the whole sheet, and that no line of it is of a foot.
fn no_foot(text: &str, trace: &[u8], expected: &str) {
    let sheet = String::from_utf8(second::sheet(text.as_bytes(), trace)).unwrap();
    assert_eq!(sheet, expected, "{text} {trace:?}");
    assert!(cut_foot(&sheet).1.is_empty(), "{sheet}");
}

/// The printed answer to calls, each a letter and a word.
fn answer(text: &str, calls: &[(u8, u64)]) -> String {
    let mut bytes = Vec::new();
    for (letter, word) in calls {
        bytes.push(*letter);
        bytes.extend(word.to_le_bytes());
    }
    let answer = answer_calls(text.as_bytes(), &bytes).expect("the calls are whole");
    String::from_utf8(answer).expect("an answer is plain text")
}

// Which letters count.

#[test]
fn a_letter_counts_at_each_tick_at_which_it_is_met() {
    // a, b, a, b, a
    totals(&abc("a, b"), &[1, 2, 1, 2, 1], &[&[3, 2]], 5);
    // Letters with the same literals count apart: the third is due at tick 2.
    totals(&abc("a, a, a"), &[1, 1, 1, 7, 1], &[&[2, 2, 1]], 5);
    totals(&abc("a || !a"), &[1, 0, 0, 6, 7], &[&[2, 3]], 5);
    // A round of a star is a tick of its body's letter.
    totals(&abc("a*, b & !a"), &[1, 1, 2, 2, 3], &[&[3, 2]], 5);
}

#[test]
fn a_letter_that_the_word_meets_counts_only_where_it_is_due() {
    // The word 7 meets all three letters at each tick.
    totals(&abc("a, b, c"), &[7, 7, 7, 7], &[&[2, 1, 1]], 4);
    // A thread that is not started.
    totals(&abc("a @ b || !a"), &[6, 6, 6], &[&[0, 0, 3]], 3);
}

#[test]
fn letters_of_a_branch_and_its_threads_count_together() {
    // a at 0, then a and b, then a and b, then !a and b, then !a alone.
    let text = abc("a @ b || !a");
    totals(&text, &[1, 3, 3, 2, 2], &[&[3, 3, 2]], 8);
    // At 2: a of the monitor and c of its thread, and so on in turn.
    let text = abc("a @ (b, c) || !a");
    totals(&text, &[1, 2, 5, 2, 4], &[&[2, 2, 2, 3]], 9);
    // A thread inside a thread: a, b, then c; the monitor has !a at 1, 2 and 3.
    let text = abc("a @ (b @ c) || !a");
    totals(&text, &[1, 2, 4, 6], &[&[1, 1, 1, 3]], 6);
}

#[test]
fn a_letter_that_two_branches_have_counts_once() {
    // Behind a each star can be left without a round. At 1 both branches have
    // d of the thread and the last letter; at 2 a again, and the other d.
    let declared = "input a; input b; input c; input d; ";
    let expression = "(a, ((b & !c)* || (c & !b)*)) @ (d, d), !a & !b & !c";
    let text = format!("{declared}p -> {expression}; monitor p;");
    totals(&text, &[1, 8], &[&[1, 0, 0, 1, 0, 1]], 3);
    totals(&text, &[1, 8, 9], &[&[2, 0, 0, 1, 1, 1]], 5);
    // At 0 and at 6 either star leads to c without a round.
    let text = abc("(a & !b* || b & !a*), c & !a & !b");
    totals(&text, &[4, 1, 1, 4, 2, 4, 4], &[&[2, 1, 4]], 7);
}

#[test]
fn starts_of_a_thread_count_one_after_the_other() {
    let text = abc("a @ (b || !b, b) || !a");
    // Starts at 1, 2 and 3, each over at once.
    totals(&text, &[1, 3, 3, 2], &[&[3, 3, 0, 0, 1]], 7);
    // The first start has its last letter at 2, the next one its first at 3.
    totals(&text, &[1, 0, 3, 2], &[&[2, 1, 1, 1, 2]], 7);
}

#[test]
fn store_tests_and_words_before_decide_what_is_met() {
    let text = "input a; input D[1:0]; internal s[1:0] = 1; \
                p -> a {s <- D;} || !a & D == s; q -> D == past(D) & !a || a; monitor p, q;";
    // D is 2 with a, so that s becomes 2, and twice without a; then it moves.
    totals(text, &[0b101, 0b100, 0b100, 0b110], &[&[1, 2], &[2, 1]], 6);
}

// Which ticks count.

#[test]
fn a_bad_tick_adds_nothing_for_any_monitor() {
    let text = "input a; input b; p -> a || !a; q -> b; r -> a || !a; monitor p, q, r;";
    totals(text, &[3, 2, 3], &[&[2, 1], &[3], &[2, 1]], 9);
    // The word 1 is bad for monitor 1 and would be met by 0 and by 2.
    totals(text, &[3, 2, 1], &[&[1, 1], &[2], &[1, 1]], 6);
    totals(text, &[0], &[&[0, 0], &[0], &[0, 0]], 0);
}

#[test]
fn a_tick_that_is_bad_for_a_thread_adds_nothing() {
    // At 2 the thread asks for c in vain; a of the monitor is not met either.
    totals(&abc("a @ (b, c) || !a"), &[1, 2, 1], &[&[1, 1, 0, 1]], 3);
}

#[test]
fn an_occupied_tick_adds_nothing() {
    // Both starts require a letter at 2, and the word has all of them.
    totals(&abc("a @ (b, c)"), &[1, 3, 7], &[&[2, 1, 0]], 3);
    totals(
        &abc("a @ (b & !c*, c) || !a"),
        &[1, 3, 2],
        &[&[2, 1, 0, 0]],
        3,
    );
}

#[test]
fn looks_add_nothing() {
    let program = open("input a; input b; p -> a @ b || !a; q -> a || !a; monitor p, q;");
    let mut watch = Watch::new(&program);
    for (word, expected) in [
        (1, [vec![1, 0, 0], vec![1, 0]]),
        (2, [vec![1, 1, 1], vec![1, 1]]),
    ] {
        let before = watch.totals().to_vec();
        // Ok, bad and stray ones.
        for word in 0..=4 {
            watch.look(word);
            assert_eq!(watch.totals(), before);
        }
        assert_eq!(watch.take(word).answer, Answer::Ok);
        assert_eq!(watch.totals(), expected);
    }
}

#[test]
fn refused_takes_add_nothing() {
    let program = open("input a; p -> a; monitor p;");
    let mut watch = Watch::new(&program);
    let refused = |watch: &mut Watch, word, number| {
        let answer = watch.take(word).answer;
        assert!(matches!(answer, Answer::Refused(r) if r.number() == number));
    };
    refused(&mut watch, 3, 15);
    assert_eq!(watch.totals(), [[0]]);
    assert_eq!(watch.take(1).answer, Answer::Ok);
    refused(&mut watch, 3, 15);
    assert_eq!(watch.take(1).answer, Answer::Ok);
    assert_eq!(watch.totals(), [[2]]);
    assert_eq!(watch.take(0).answer, Answer::Bad(0));
    for word in [1, 0, 3] {
        refused(&mut watch, word, 16);
    }
    assert_eq!(watch.totals(), [[2]]);
}

#[test]
fn a_full_watch_counts_no_more() {
    let program = open("input a; p -> a || !a; monitor p;");
    let mut watch = Watch::new(&program);
    for tick in 0..1_000_000 {
        assert_eq!(watch.take(u64::from(tick % 4 == 0)).answer, Answer::Ok);
    }
    assert!(matches!(watch.take(1).answer, Answer::Refused(r) if r.number() == 17));
    assert_eq!(watch.totals(), [[250_000, 750_000]]);
}

#[test]
fn a_watch_that_is_copied_counts_by_itself() {
    let program = open("input a; p -> a || !a; monitor p;");
    let mut watch = Watch::new(&program);
    assert_eq!(watch.take(1).answer, Answer::Ok);
    let mut other = watch.clone();
    assert_eq!(watch.take(0).answer, Answer::Ok);
    assert_eq!(other.take(1).answer, Answer::Ok);
    assert_eq!(watch.totals(), [[1, 1]]);
    assert_eq!(other.totals(), [[2, 0]]);
}

// How they are printed.

#[test]
fn the_foot_follows_the_last_line() {
    let text = abc("a, b || !a & !b");
    let clean = "rows 5 letters 3\n\
                 0 0000000000000000 ok\n\
                 1 0000000000000001 ok\n\
                 clean 2\n\
                 met 0 0 1\n\
                 met 0 1 0\n\
                 met 0 2 1\n\
                 total 2\n";
    assert_eq!(sheet(&text, &[0, 1]), clean);
    let bad = "rows 5 letters 3\n\
               0 0000000000000000 ok\n\
               1 0000000000000001 ok\n\
               2 0000000000000005 bad 0\n\
               met 0 0 1\n\
               met 0 1 0\n\
               met 0 2 1\n\
               total 2\n";
    // The rest of the trace is not read.
    assert_eq!(sheet(&text, &[0, 1, 5, 0, 8]), bad);
}

#[test]
fn the_sheet_of_no_words_has_a_foot() {
    let text = "input a; p -> a || !a; q -> a; monitor q, p;";
    let expected = "rows 4 letters 3\n\
                    clean 0\n\
                    met 0 0 0\n\
                    met 1 0 0\n\
                    met 1 1 0\n\
                    total 0\n";
    assert_eq!(sheet(text, &[]), expected);
}

#[test]
fn monitors_and_letters_are_in_order() {
    let text = "input a; input b; p -> a, b; q -> a @ b || !a; monitor q, p, q;";
    let counts = [2, 2, 2];
    totals(text, &[1, 2, 1, 2], &[&counts, &[2, 2], &counts], 16);
    // Numbers above 9, in the order of numbers.
    let letters: Vec<String> = (0..256).map(|value| format!("D=={value}")).collect();
    let choice = format!("input D[7:0]; p -> {}; monitor p;", letters.join("||"));
    let mut counts = [0; 256];
    (counts[2], counts[10], counts[255]) = (1, 3, 2);
    totals(&choice, &[10, 255, 10, 2, 10, 255], &[&counts], 6);
    // As many monitors as there may be, each of which has a letter 0.
    let many = vec!["p"; 32].join(", ");
    let text = format!("input a; p -> a; monitor {many};");
    totals(&text, &[1, 1], &[&[2][..]; 32], 64);
}

#[test]
fn a_refused_text_has_no_foot() {
    no_foot("", &[1, 1], "refused 3 0\n");
    no_foot("input a; p -> a*; monitor p;", &[], "refused 10 0 0\n");
    let long = " ".repeat(16_385);
    no_foot(&long, &[], "refused 1 0\n");
    assert_eq!(
        answer("input a; p -> a*; monitor p;", &[]),
        "refused 10 0 0\n"
    );
    assert_eq!(answer("", &[(b'T', 1)]), "refused 3 0\n");
}

#[test]
fn a_refused_record_or_tick_has_no_foot() {
    let text = "input a; p -> a || !a; monitor p;";
    let two = "rows 3 letters 2\n0 0000000000000001 ok\n1 0000000000000000 ok\n";
    let ticks = trace(&[1, 0]);
    for (end, refusal) in [
        (&[1, 2][..], "refused 15 2\n"),
        (&[1], "refused 13 2\n"),
        (&[0xff, 1, 2, 3], "refused 13 2\n"),
        (&[1, 0], "refused 14 2\n"),
    ] {
        no_foot(text, &[&ticks, end].concat(), &format!("{two}{refusal}"));
        // At tick 0 nothing was met, and still there is none.
        let begin = refusal.replace(" 2\n", " 0\n");
        no_foot(text, end, &format!("rows 3 letters 2\n{begin}"));
    }
}

#[test]
fn an_answer_to_calls_has_its_foot_behind_bad_and_refused_ones() {
    let text = "input a; input b; p -> a; q -> b || !b; monitor p, q;";
    let takes = [(b'T', 3), (b'T', 1)];
    let begin = "rows 4 letters 3\ntake ok touched 4\ntake ok touched 7\n";
    let end = "met 0 0 2\nmet 1 0 1\nmet 1 1 1\ntotal 4\n";
    for (calls, lines) in [
        (&[][..], ""),
        (&[(b'L', 3)], "look ok\n"),
        (&[(b'L', 0)], "look bad 0\n"),
        (&[(b'L', 4)], "look refused 15\n"),
        (&[(b'T', 4)], "take refused 15 touched 0\n"),
        (&[(b'T', 2)], "take bad 0 touched 7\n"),
        (
            &[(b'T', 2), (b'T', 3), (b'L', 3)],
            "take bad 0 touched 7\ntake refused 16 touched 0\nlook refused 16\n",
        ),
    ] {
        let calls = [&takes, calls].concat();
        assert_eq!(answer(text, &calls), format!("{begin}{lines}{end}"));
    }
}

#[test]
fn takes_behind_refused_ones_count() {
    let text = "input a; p -> a || !a; monitor p;";
    let calls = [(b'T', 1), (b'T', 2), (b'L', 1), (b'T', 0), (b'T', 1)];
    let expected = "rows 3 letters 2\n\
                    take ok touched 3\n\
                    take refused 15 touched 0\n\
                    look ok\n\
                    take ok touched 5\n\
                    take ok touched 5\n\
                    met 0 0 2\n\
                    met 0 1 1\n\
                    total 3\n";
    assert_eq!(answer(text, &calls), expected);
}

// Both sums.

/// How many letters were met between two totals; no letter more than once.
fn met_between(before: &[Vec<u32>], after: &[Vec<u32>]) -> u32 {
    let pairs = before.iter().flatten().zip(after.iter().flatten());
    let rises: Vec<u32> = pairs.map(|(before, after)| after - before).collect();
    assert!(rises.iter().all(|rise| *rise <= 1), "{before:?} {after:?}");
    rises.iter().sum()
}

/// A word to take: the first that is ok of some drawn ones, or the last of them.
fn drawn(watch: &Watch, numbers: &mut Numbers) -> u64 {
    let mut word = 0;
    for _ in 0..4 {
        word = numbers.below(8) as u64;
        if watch.look(word) == Answer::Ok {
            break;
        }
    }
    word
}

#[test]
fn the_sum_over_letters_is_the_sum_over_ticks() {
    let text = "input a; input b; input c; \
                p -> a @ (b || !b, (c || !b & !c, c)) || !a; \
                q -> (a & b)*, (!a || a & !b) @ c; monitor p, q, p;";
    let program = open(text);
    let (mut bad, mut most) = (0, 0);
    for seed in 0..500 {
        let mut numbers = Numbers(seed);
        let mut watch = Watch::new(&program);
        let (mut words, mut sum) = (Vec::new(), 0);
        for _ in 0..20 {
            let word = drawn(&watch, &mut numbers);
            let before = watch.totals().to_vec();
            let answer = watch.take(word).answer;
            let met = met_between(&before, watch.totals());
            words.push(word);
            sum += met;
            most = most.max(met);
            if answer != Answer::Ok {
                assert_eq!(met, 0);
                bad += 1;
                break;
            }
            // Each monitor has a letter of its own at each tick.
            assert!(met >= 3);
        }
        let sheet = sheet(text, &words);
        assert!(sheet.ends_with(&format!("\ntotal {sum}\n")), "{sheet}");
    }
    // At most one of each monitor and one of its thread.
    assert!(bad > 50 && most == 6, "{bad} bad, {most} letters at once");
}

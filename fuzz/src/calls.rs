//! Looks and takes for a grown case: its words are taken, and among them stand looks, at the word that is then taken, at that word but for a bit, at the word
//! before, at any word and at a stray one, and stray takes. In a text with threads some looks are at words that are bad for a busy thread alone, and in one with
//! limits at words beyond a limit. Behind the last word, bad or not, stand a few calls of any words. Number 17 is not met here: it takes a million takes, and is
//! left to other tests.

use crate::compare::words;
use crate::model::{Model, Said};
use crate::opened::Opened;
use crate::random::Random;
use crate::rows::Touched;
use crate::{grow, opened, threads, Case};
use second::stage::Entry;
use second::{Answer, Watch};
use std::collections::{BTreeMap, BTreeSet};

/// Bytes of a call: `L` for a look or `T` for a take, and its word, lowest byte first.
pub const LENGTH: usize = 9;
pub const LOOK: u8 = b'L';
const TAKE: u8 = b'T';

/// So many words are tried before none is said to be found.
const TRIES: usize = 6;

/// With more words than so many there are looks at some of them only, so that the calls have room.
const MANY: usize = 500;

/// Calls that are being made, and a model that has taken the words so far, if the text has threads or letters that count for limits; these by the wires that
/// they look at and want.
struct Row<'r, 'o> {
    random: &'r mut Random,
    wires: usize,
    bytes: Vec<u8>,
    model: Option<Model<'o>>,
    threaded: bool,
    counting: Vec<(u64, u64)>,
}

impl Row<'_, '_> {
    fn put(&mut self, letter: u8, word: u64) {
        self.bytes.push(letter);
        self.bytes.extend(word.to_le_bytes());
    }

    /// Any word within the wires.
    fn any(&mut self) -> u64 {
        self.random.word() & u64::MAX.checked_shr(64 - self.wires as u32).unwrap_or(0)
    }

    /// The word but for one wire.
    fn changed(&mut self, word: u64) -> u64 {
        word ^ 1 << self.random.below(self.wires.max(1))
    }

    /// The word with a bit above the wires, if there is room for one.
    fn stray(&mut self, word: u64) -> u64 {
        match 64 - self.wires {
            0 => word,
            above => word | 1 << (self.wires + self.random.below(above)),
        }
    }

    /// A word to look at before another is taken.
    fn looked_at(&mut self, word: u64, before: u64) -> u64 {
        match self.random.below(9) {
            0..=2 => word,
            3..=5 => self.changed(word),
            6 => before,
            7 => self.any(),
            _ => self.stray(word),
        }
    }

    /// A look at a word a bit or two away, such that a busy thread alone makes it bad, if one is found quickly.
    fn put_busy_look(&mut self, word: u64, model: &Model) {
        for _ in 0..TRIES {
            let mut near = self.changed(word);
            if self.random.once_in(2) {
                near = self.changed(near);
            }
            if matches!(model.look(near), Said::Busy(_)) {
                return self.put(LOOK, near);
            }
        }
    }

    /// A look at a word beyond a limit, if one is found quickly: it is this word but for the wires of a letter that counts.
    fn put_look_beyond(&mut self, word: u64, model: &Model) {
        for _ in 0..TRIES.min(self.counting.len()) {
            let (look, want) = *self.random.pick(&self.counting);
            let near = word & !look | want;
            if matches!(model.look(near), Said::Beyond(_)) {
                return self.put(LOOK, near);
            }
        }
    }

    /// Has the model take a word that is not stray.
    fn move_model(&mut self, word: u64) {
        let above = word.checked_shr(self.wires as u32).unwrap_or(0);
        if let Some(model) = self.model.as_mut().filter(|_| above == 0) {
            model.take(word);
        }
    }

    /// Some looks, for some words a stray take.
    fn put_before_take(&mut self, word: u64, before: u64) {
        for _ in 0..*self.random.pick(&[0, 0, 1, 1, 2, 4]) {
            let looked_at = self.looked_at(word, before);
            self.put(LOOK, looked_at);
        }
        if let Some(model) = self.model.take() {
            if self.threaded {
                self.put_busy_look(word, &model);
            }
            self.put_look_beyond(word, &model);
            self.model = Some(model);
        }
        if self.random.once_in(8) {
            let stray = self.stray(word);
            self.put(TAKE, stray);
        }
    }

    /// All takes, with what stands before each.
    fn put_takes(&mut self, words: &[u64]) {
        let mut before = 0;
        for &word in words {
            if words.len() <= MANY || self.random.once_in(8) {
                self.put_before_take(word, before);
            }
            self.put(TAKE, word);
            self.move_model(word);
            before = word;
        }
    }

    /// Looks and takes of any words, some of them stray.
    fn put_more(&mut self) {
        for _ in 0..1 + self.random.below(6) {
            let letter = *self.random.pick(&[LOOK, TAKE]);
            let any = self.any();
            let word = if self.random.once_in(4) { self.stray(any) } else { any };
            self.put(letter, word);
        }
    }
}

/// A grown case with calls in the place of its trace.
pub fn case(random: &mut Random) -> Case {
    let Case { text, trace } = grow::case(random);
    let opened = opened::accepted(&text);
    let wires = opened.as_ref().map_or(64, |opened| opened.wires as usize);
    let threaded = opened.as_ref().is_some_and(Opened::has_threads);
    let counting = opened.as_ref().map_or_else(Vec::new, Opened::counting);
    let model = opened.as_ref().filter(|_| threaded || !counting.is_empty()).map(Model::new);
    let mut row = Row { random, wires, bytes: Vec::new(), model, threaded, counting };
    row.put_takes(&words(&trace));
    row.put_more();
    let calls = row.bytes;
    Case { text, trace: calls }
}

/// What `second` prints for a case with calls.
pub fn answer(case: &Case) -> Vec<u8> {
    second::answer_calls(&case.text, &case.trace).expect("the calls are whole")
}

/// A case with calls as it is put to a program. Its first string names requests; no program here takes notice of it.
pub fn entry(case: &Case) -> Entry {
    let strings = vec![Vec::new(), case.text.clone(), case.trace.clone()];
    Entry { name: String::new(), case: second::batch::Case { kind: b'T', strings }, answer: answer(case) }
}

/// How many looks and takes are bad for a busy thread alone.
#[derive(Clone, Copy, Debug, Default, PartialEq, Eq)]
pub struct Busy {
    pub looks: u64,
    /// Of the looks, those behind which a take was ok.
    pub went_on: u64,
    pub takes: u64,
}

impl Busy {
    /// Counts those of a case.
    pub fn count(&mut self, case: &Case) {
        let Ok(program) = second::open(&case.text) else {
            return;
        };
        if let Some(opened) = threads::opened(&case.text) {
            self.count_calls(&case.trace, Watch::new(&program), Model::new(&opened));
        }
    }

    fn count_calls(&mut self, calls: &[u8], mut watch: Watch, mut model: Model) {
        let mut looks = 0;
        for (letter, word) in calls_of(calls) {
            let answer = if letter == TAKE { watch.take(word).answer } else { watch.look(word) };
            let is_busy = matches!(answer, Answer::Bad(_)) && matches!(model.look(word), Said::Busy(_));
            if letter == LOOK {
                looks += u64::from(is_busy);
                self.looks += u64::from(is_busy);
            } else if answer == Answer::Ok {
                model.take(word);
                self.went_on += std::mem::take(&mut looks);
            } else {
                self.takes += u64::from(is_busy);
            }
        }
    }
}

/// How many cases have a take whose number of rows is easily missed.
#[derive(Clone, Copy, Debug, Default, PartialEq, Eq)]
pub struct Touches {
    /// Cases that are accepted.
    pub cases: u64,
    /// Those with an ok take at which two letters met before lead to one row: one of a thread, and one behind which that thread may start.
    pub shared_ok: u64,
    /// Those with such a take that is bad.
    pub shared_bad: u64,
    /// Those with a take that is bad for another monitor than the last: the rows of those behind it count too.
    pub not_last: u64,
}

impl Touches {
    /// Counts a case.
    pub fn count(&mut self, case: &Case) {
        let Ok(program) = second::open(&case.text) else {
            return;
        };
        let opened = opened::open(std::str::from_utf8(&case.text).expect("an accepted text is ASCII"));
        let (mut watch, mut model) = (Watch::new(&program), Model::new(&opened));
        let (mut shared_ok, mut shared_bad, mut not_last) = (false, false, false);
        for word in takes(&case.trace) {
            match watch.take(word).answer {
                Answer::Ok => {
                    shared_ok |= is_shared(&model.touched());
                    model.take(word);
                }
                Answer::Bad(monitor) => {
                    shared_bad = is_shared(&model.touched());
                    not_last = monitor + 1 < program.monitors();
                }
                Answer::Refused(_) => (),
            }
        }
        self.cases += 1;
        self.shared_ok += u64::from(shared_ok);
        self.shared_bad += u64::from(shared_bad);
        self.not_last += u64::from(not_last);
    }
}

/// Whether a row is in two of the sets.
fn is_shared(touched: &[BTreeSet<Touched>]) -> bool {
    let mut all = BTreeSet::new();
    !touched.iter().flatten().all(|row| all.insert(row))
}

/// The words of the takes among some calls.
pub fn takes(bytes: &[u8]) -> impl Iterator<Item = u64> + '_ {
    calls_of(bytes).filter(|(letter, _)| *letter == TAKE).map(|(_, word)| word)
}

/// The calls that some bytes are: the letter and the word of each.
pub fn calls_of(bytes: &[u8]) -> impl Iterator<Item = (u8, u64)> + '_ {
    let word = |bytes: &[u8]| u64::from_le_bytes(bytes.try_into().expect("a word has 8 bytes"));
    bytes.chunks(LENGTH).map(move |call| (call[0], word(&call[1..])))
}

/// What was met: how many lines there were of which kind.
#[derive(Debug, Default)]
pub struct Met {
    pub kinds: BTreeMap<String, u64>,
    /// Bad looks behind which a take was ok: the watch went on.
    pub went_on: u64,
}

impl Met {
    /// Counts the lines of an answer.
    pub fn count(&mut self, answer: &[u8]) {
        let mut bad_looks = 0;
        for kind in String::from_utf8_lossy(answer).lines().filter_map(kind) {
            match kind.as_str() {
                "look bad" => bad_looks += 1,
                "take ok" => self.went_on += std::mem::take(&mut bad_looks),
                _ => (),
            }
            *self.kinds.entry(kind).or_insert(0) += 1;
        }
    }
}

/// The call of a line and its answer, without the monitor; or whether the text is accepted.
fn kind(line: &str) -> Option<String> {
    let words: Vec<&str> = line.split(' ').collect();
    match words.as_slice() {
        ["rows", ..] => Some(String::from("text accepted")),
        ["refused", ..] => Some(String::from("text refused")),
        [call @ ("look" | "take"), "refused", number, ..] => Some(format!("{call} refused {number}")),
        [call @ ("look" | "take"), said, ..] => Some(format!("{call} {said}")),
        _ => None,
    }
}

#[cfg(test)]
mod tests {
    use super::*;
    use crate::{totals, windows};

    /// A string of a case has room for so many bytes in the Rattle program, and an answer for twice as many.
    const ROOM: usize = 65_536;

    fn grown(seed: u64) -> Case {
        case(&mut Random::new(seed))
    }

    fn met<'a>(answers: impl IntoIterator<Item = &'a [u8]>) -> Met {
        let mut met = Met::default();
        answers.into_iter().for_each(|answer| met.count(answer));
        met
    }

    #[test]
    fn lines_are_counted_by_kind() {
        let met = met([
            &b"rows 1 letters 1\nlook bad 0\nlook bad 3\ntake ok touched 1\nlook bad 1\nlook refused 15\ntake bad 0 touched 2\ntake refused 16 touched 0\n"[..],
            b"rows 1 letters 1\nlook ok\ntake ok touched 1\nlook bad 0\nmet 0 0 1\ntotal 1\n",
            b"refused 3 0\n",
            b"refused 12 0 1\n",
        ]);
        let kinds: Vec<(&str, u64)> = met.kinds.iter().map(|(kind, &n)| (kind.as_str(), n)).collect();
        let looks = [("look bad", 4), ("look ok", 1), ("look refused 15", 1)];
        let takes = [("take bad", 1), ("take ok", 2), ("take refused 16", 1)];
        assert_eq!(kinds, [&looks[..], &takes, &[("text accepted", 2), ("text refused", 2)]].concat());
        assert_eq!(met.went_on, 2);
    }

    /// All answers to looks and takes, but for number 17.
    #[test]
    fn every_kind_is_met_often() {
        let answers: Vec<Vec<u8>> = (0..4000).map(|seed| answer(&grown(seed))).collect();
        let met = met(answers.iter().map(Vec::as_slice));
        let answers = ["bad", "ok", "refused 15", "refused 16"];
        let calls = ["look", "take"].iter().flat_map(|call| answers.map(|answer| format!("{call} {answer}")));
        let all: Vec<String> = calls.chain(["text accepted", "text refused"].map(String::from)).collect();
        assert!(met.kinds.keys().eq(&all), "{met:?}");
        assert!(met.kinds.values().all(|&n| n > 500) && met.went_on > 5000, "{met:?}");
    }

    /// Of the looks, many are at the word of the next take, many a bit away from it, and many at the word of the take before.
    #[test]
    fn looks_are_near_the_takes() {
        let (mut same, mut near, mut earlier) = (0, 0, 0);
        for case in (0..1000).map(grown) {
            let calls: Vec<(u8, u64)> = calls_of(&case.trace).collect();
            for calls in calls.windows(3).filter(|calls| [calls[0].0, calls[1].0, calls[2].0] == [TAKE, LOOK, TAKE]) {
                let (before, word, next) = (calls[0].1, calls[1].1, calls[2].1);
                same += usize::from(word == next);
                near += usize::from((word ^ next).is_power_of_two());
                earlier += usize::from(word == before && word != next);
            }
        }
        assert!(same > 700 && near > 700 && earlier > 100, "{same} {near} {earlier}");
    }

    fn case_of(body: &str, monitors: &str, calls: &[(u8, u64)]) -> Case {
        let text = format!("input a; input b; input c; p -> {body}; q -> a || !a; monitor {monitors};").into_bytes();
        let trace = calls.iter().flat_map(|(letter, word)| [&[*letter][..], &word.to_le_bytes()].concat()).collect();
        Case { text, trace }
    }

    fn busy(body: &str, calls: &[(u8, u64)]) -> (u64, u64, u64) {
        let mut busy = Busy::default();
        busy.count(&case_of(body, "p", calls));
        (busy.looks, busy.went_on, busy.takes)
    }

    #[test]
    fn calls_at_a_busy_thread_are_counted() {
        let stray = (TAKE, 8);
        let looks = [(TAKE, 1), (TAKE, 4), (TAKE, 5), (LOOK, 4), (LOOK, 0), stray, (LOOK, 4), (TAKE, 6), (TAKE, 0), (LOOK, 0)];
        assert_eq!(busy("(a, b*) @ (c, c, c), !b", &looks), (2, 2, 0));
        assert_eq!(busy("a @ (b, c)", &[(TAKE, 1), (LOOK, 3), (TAKE, 3), (LOOK, 3), (LOOK, 7), (TAKE, 7), (TAKE, 7), (LOOK, 7)]), (1, 0, 1));
        assert_eq!(busy("a @ (b, c)", &[(TAKE, 1), (TAKE, 3), (TAKE, 0)]), (0, 0, 0));
        assert_eq!(busy("a @ (b, c*)", &[(TAKE, 1), (TAKE, 3), (TAKE, 7)]), (0, 0, 0));
    }

    #[test]
    fn threads_are_often_busy() {
        let mut busy = Busy::default();
        (0..10_000).map(grown).for_each(|case| busy.count(&case));
        assert!(busy.looks > 1000 && busy.went_on > 300 && busy.takes > 400, "{busy:?}");
    }

    /// Most looks beyond a limit stand before a take that is ok.
    #[test]
    fn looks_are_often_beyond_a_limit() {
        let mut tally = windows::Tally::default();
        for case in (0..4000).map(grown) {
            tally.count(&case, totals::of_calls(&case).map(|foot| foot.limits).as_ref());
        }
        assert!(tally.looks > 5000 && 2 * tally.went_on > tally.looks && tally.went_on < tally.looks, "{tally:?}");
    }

    fn touches(body: &str, monitors: &str, words: &[u64]) -> [u64; 4] {
        let takes: Vec<(u8, u64)> = words.iter().map(|&word| (TAKE, word)).collect();
        let mut touches = Touches::default();
        touches.count(&case_of(body, monitors, &takes));
        [touches.cases, touches.shared_ok, touches.shared_bad, touches.not_last]
    }

    /// Behind the words 1, 4, 5 both the letter a, with no round of b, and the letter c of the thread lead to the rows of c and !c.
    #[test]
    fn takes_with_rows_that_are_easily_missed_are_counted() {
        let body = "(a, b*) @ (c*, !c), !b";
        assert_eq!(touches(body, "p", &[1, 4, 5]), [1, 0, 0, 0]);
        assert_eq!(touches(body, "p", &[1, 4, 5, 6, 2]), [1, 1, 0, 0]);
        assert_eq!(touches(body, "p", &[1, 4, 5, 4, 6]), [1, 0, 1, 0]);
        assert_eq!(touches(body, "p", &[1, 4, 5, 6, 6, 4]), [1, 1, 1, 0]);
        assert_eq!(touches(body, "p", &[1, 4, 5, 8]), [1, 0, 0, 0]);
        assert_eq!(touches("a @ (b, c)", "p", &[1, 3, 7]), [1, 0, 0, 0]);
        assert_eq!(touches(body, "p, q", &[0]), [1, 0, 0, 1]);
        assert_eq!(touches(body, "q, p", &[0]), [1, 0, 0, 0]);
        assert_eq!(touches(body, "p, q", &[1, 4, 5, 6]), [1, 1, 0, 0]);
        assert_eq!(touches("a || a", "p, q", &[0]), [0; 4]);
    }

    /// Each in at least one accepted case of twenty.
    #[test]
    fn rows_are_often_easily_missed() {
        let mut touches = Touches::default();
        (0..10_000).map(grown).for_each(|case| touches.count(&case));
        let Touches { cases, shared_ok, shared_bad, not_last } = touches;
        assert!([shared_ok, shared_bad, not_last].iter().all(|n| 20 * n > cases), "{touches:?}");
    }

    #[test]
    fn calls_are_whole_and_have_room() {
        for case in (0..4000).map(grown) {
            assert!(!case.trace.is_empty() && case.trace.len() % LENGTH == 0);
            assert!(case.text.len().max(case.trace.len()) <= ROOM && answer(&case).len() <= 2 * ROOM);
        }
    }

    #[test]
    fn the_same_seed_makes_the_same_calls() {
        for seed in 0..100 {
            assert_eq!(grown(seed), grown(seed));
        }
    }

    #[test]
    fn words_are_within_the_wires_or_stray() {
        for (seed, wires) in (0..2000).flat_map(|seed| [0, 1, 7, 63, 64].map(|wires| (seed, wires))) {
            let mut row = Row { random: &mut Random::new(seed), wires, bytes: Vec::new(), model: None, threaded: false, counting: Vec::new() };
            let above = |word: u64| word.checked_shr(wires as u32).unwrap_or(0);
            let any = row.any();
            assert_eq!(above(any), 0);
            assert_eq!(above(row.stray(any)) == 0, wires == 64);
            assert!((row.changed(any) ^ any).is_power_of_two());
            assert_eq!(above(row.changed(any)) == 0, wires > 0);
        }
    }
}

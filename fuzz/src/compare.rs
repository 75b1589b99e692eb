//! Whether a library does on a case what `second` does: the same sheet where there is room for it, be it room that is surely enough, a byte less, or just
//! filled; 0 and an untouched range where a byte is missing; the same records; and no byte beside a range changed.

use crate::Case;

/// `linewatch_sheet`, or what stands in its place.
pub type SheetEntry = unsafe extern "C" fn(*const u8, usize, *const u8, usize, *mut u8, usize) -> usize;

/// `linewatch_write_record`, or what stands in its place.
pub type RecordEntry = unsafe extern "C" fn(u64, u64, *mut u8, usize) -> usize;

const UNTOUCHED: u8 = 0xa5;
/// Bytes behind a range that are watched too.
const MARGIN: usize = 16;
const MOST_LETTERS: usize = 256;

/// Whether a call, given a range of a length, answers with the right bytes if they have room there and else with nothing, and leaves all the rest alone.
fn keeps(call: impl Fn(*mut u8, usize) -> usize, length: usize, right: &[u8]) -> bool {
    let written = if length < right.len() { &[] } else { right };
    let mut room = vec![UNTOUCHED; length + MARGIN];
    let answer = call(room.as_mut_ptr(), length);
    answer == written.len() && room.starts_with(written) && room[written.len()..].iter().all(|&b| b == UNTOUCHED)
}

/// The same for ranges just filled, one byte too short, and of other lengths.
fn keeps_all(call: impl Fn(*mut u8, usize) -> usize, others: &[usize], right: &[u8]) -> bool {
    let lengths = [right.len(), right.len() - 1];
    others.iter().chain(&lengths).all(|&length| keeps(&call, length, right))
}

/// The bytes that are enough for each sheet of a text with so many letters and of so many bytes of records. With as many the library writes in one pass.
pub fn sure_room(letters: usize, records: usize) -> usize {
    256 + 24 * letters + 64 * records.min(1_000_000)
}

/// Whether the sheet of a case is another than that of `second`.
pub fn differs(entry: SheetEntry, case: &Case) -> bool {
    let (text, trace) = (&case.text, &case.trace);
    let right = second::sheet(text, trace);
    let call = |range: *mut u8, length: usize| unsafe { entry(text.as_ptr(), text.len(), trace.as_ptr(), trace.len(), range, length) };
    let letters = second::open(text).map_or(0, |program| program.letters() as usize);
    let sure = sure_room(letters, trace.len());
    // Where the letters are not known there may be as many as a text can have.
    !keeps_all(call, &[sure_room(MOST_LETTERS, trace.len()), sure, sure - 1], &right)
}

/// The record of a word, by `second`.
pub fn record(before: u64, word: u64) -> Vec<u8> {
    let mut record = vec![0; second::record::LONGEST];
    let length = second::record::write(before, word, &mut record).expect("there is room for the longest");
    record.truncate(length);
    record
}

/// The words of a trace, up to the first record that is refused, and whether none is.
pub fn read(trace: &[u8]) -> (Vec<u64>, bool) {
    let (mut words, mut at, mut before) = (Vec::new(), 0, 0);
    while let Ok(Some(read)) = second::record::read(trace, at, before) {
        words.push(read.word);
        (at, before) = (read.end, read.word);
    }
    (words, at == trace.len())
}

/// The words of a trace, up to the first record that is refused.
pub fn words(trace: &[u8]) -> Vec<u64> {
    read(trace).0
}

/// Whether a record of a case's trace, up to the first that is refused, is written otherwise than `second` writes it.
pub fn records_differ(entry: RecordEntry, case: &Case) -> bool {
    let mut before = 0;
    for word in words(&case.trace) {
        let call = |range: *mut u8, length: usize| unsafe { entry(before, word, range, length) };
        let right = record(before, word);
        if !keeps_all(call, &[right.len() + 4], &right) {
            return true;
        }
        before = word;
    }
    false
}

#[cfg(test)]
mod tests {
    use super::*;
    use crate::grow;
    use crate::random::Random;

    unsafe fn bytes<'a>(at: *const u8, length: usize) -> &'a [u8] {
        std::slice::from_raw_parts(at, length)
    }

    unsafe extern "C" fn right(text: *const u8, n: usize, trace: *const u8, m: usize, range: *mut u8, length: usize) -> usize {
        let sheet = second::sheet(bytes(text, n), bytes(trace, m));
        if length < sheet.len() {
            return 0;
        }
        std::ptr::copy_nonoverlapping(sheet.as_ptr(), range, sheet.len());
        sheet.len()
    }

    unsafe extern "C" fn wrong_byte(text: *const u8, n: usize, trace: *const u8, m: usize, range: *mut u8, length: usize) -> usize {
        let answer = right(text, n, trace, m, range, length);
        if answer > 0 {
            *range.add(answer - 2) ^= 1;
        }
        answer
    }

    unsafe extern "C" fn byte_behind_the_sheet(text: *const u8, n: usize, trace: *const u8, m: usize, range: *mut u8, length: usize) -> usize {
        let answer = right(text, n, trace, m, range, length);
        if 0 < answer && answer < length {
            *range.add(answer) = 0;
        }
        answer
    }

    unsafe extern "C" fn byte_behind_the_range(text: *const u8, n: usize, trace: *const u8, m: usize, range: *mut u8, length: usize) -> usize {
        *range.add(length) = 0;
        right(text, n, trace, m, range, length)
    }

    unsafe extern "C" fn short_range_touched(text: *const u8, n: usize, trace: *const u8, m: usize, range: *mut u8, length: usize) -> usize {
        let answer = right(text, n, trace, m, range, length);
        if answer == 0 {
            *range = b'r';
        }
        answer
    }

    unsafe extern "C" fn one_too_long(text: *const u8, n: usize, trace: *const u8, m: usize, range: *mut u8, length: usize) -> usize {
        match right(text, n, trace, m, range, length) {
            0 => 0,
            answer => answer + 1,
        }
    }

    unsafe extern "C" fn short_range_answered(text: *const u8, n: usize, trace: *const u8, m: usize, range: *mut u8, length: usize) -> usize {
        match right(text, n, trace, m, range, length) {
            0 => length,
            answer => answer,
        }
    }

    unsafe extern "C" fn needs_a_byte_more(text: *const u8, n: usize, trace: *const u8, m: usize, range: *mut u8, length: usize) -> usize {
        right(text, n, trace, m, range, length - 1)
    }

    /// The bytes that are surely enough for the sheet of `case`.
    const SURE: usize = 256 + 24 + 64 * 5;

    unsafe extern "C" fn wrong_in_one_pass(text: *const u8, n: usize, trace: *const u8, m: usize, range: *mut u8, length: usize) -> usize {
        let entry = if length < SURE { right } else { wrong_byte };
        entry(text, n, trace, m, range, length)
    }

    unsafe extern "C" fn wrong_a_byte_below(text: *const u8, n: usize, trace: *const u8, m: usize, range: *mut u8, length: usize) -> usize {
        let entry = if length == SURE - 1 { wrong_byte } else { right };
        entry(text, n, trace, m, range, length)
    }

    fn case() -> Case {
        Case { text: b"input a; p -> a; monitor p;".to_vec(), trace: vec![1, 1, 0, 1, 0] }
    }

    #[test]
    fn the_right_sheet_does_not_differ() {
        assert!(!differs(right, &case()));
    }

    #[test]
    fn every_wrong_sheet_differs() {
        let wrong: [(&str, SheetEntry); 9] = [
            ("a wrong byte", wrong_byte),
            ("a byte behind the sheet", byte_behind_the_sheet),
            ("a byte behind the range", byte_behind_the_range),
            ("a short range touched", short_range_touched),
            ("a wrong length", one_too_long),
            ("a short range answered", short_range_answered),
            ("a range just filled is too short", needs_a_byte_more),
            ("a wrong byte in one pass", wrong_in_one_pass),
            ("a wrong byte where one pass has no room for sure", wrong_a_byte_below),
        ];
        for (what, entry) in wrong {
            assert!(differs(entry, &case()), "{what}");
        }
    }

    /// Grown sheets have that room, and a text with as many letters and monitors as there may be too.
    #[test]
    fn sure_room_is_enough() {
        let letters = |case: &Case| second::open(&case.text).map_or(0, |program| program.letters() as usize);
        for case in (0..5000).map(|seed| grow::case(&mut Random::new(seed))) {
            assert!(second::sheet(&case.text, &case.trace).len() <= sure_room(letters(&case), case.trace.len()));
        }
        let monitors = vec!["p"; 31].join(", ");
        let text = format!("input a; p -> a; q -> {}; monitor {monitors}, q;", vec!["a"; 225].join(", "));
        let case = Case { text: text.into_bytes(), trace: [vec![1, 1], vec![0; 1000]].concat() };
        let sheet = second::sheet(&case.text, &case.trace);
        assert!(sheet.ends_with(b"total 32032\n") && letters(&case) == MOST_LETTERS);
        assert!(sheet.len() <= sure_room(MOST_LETTERS, case.trace.len()));
        assert_eq!([sure_room(MOST_LETTERS, 3), sure_room(3, 2_000_000)], [6400 + 3 * 64, 256 + 72 + 64_000_000]);
    }

    #[test]
    fn words_are_read_up_to_a_refusal() {
        assert_eq!(read(&case().trace), (vec![1, 1, 0], true));
        assert_eq!(read(&[1, 1, 2, 9, 1, 1, 0]), (vec![1, 0x901], false));
        assert_eq!(read(&[1, 1, 2]), (vec![1], false));
        assert_eq!(read(&[]), (vec![], true));
        assert_eq!(words(&[1, 1, 2]), [1]);
    }

    unsafe extern "C" fn right_record(before: u64, word: u64, range: *mut u8, length: usize) -> usize {
        let right = record(before, word);
        if length < right.len() {
            return 0;
        }
        std::ptr::copy_nonoverlapping(right.as_ptr(), range, right.len());
        right.len()
    }

    unsafe extern "C" fn always_from_zero(_: u64, word: u64, range: *mut u8, length: usize) -> usize {
        right_record(0, word, range, length)
    }

    #[test]
    fn a_wrong_record_differs() {
        assert!(!records_differ(right_record, &case()));
        assert!(records_differ(always_from_zero, &case()));
    }
}

//! The two C entries of the proved library, for slices. `include/linewatch.h` says what they promise. They take every input and write only within
//! the range that they are lent, so calling them with the pointer and the length of a slice is safe.

extern "C" {
    fn linewatch_sheet(text: *const u8, text_length: usize, records: *const u8, records_length: usize, sheet: *mut u8, sheet_length: usize) -> usize;
    fn linewatch_write_record(before: u64, word: u64, out: *mut u8, out_length: usize) -> usize;
}

/// Room that is enough for every sheet: so much for its first line, its end and the lines of 256 letters at its foot, and so much for each tick. A tick
/// has at least one byte of the trace, and there are at most a million.
const ROOM: usize = 6_400;
const ROOM_OF_TICK: usize = 64;
const MOST_TICKS: usize = 1_000_000;

/// The printed sheet of a rule text and a trace.
pub fn sheet(text: &[u8], trace: &[u8]) -> Vec<u8> {
    let mut sheet = vec![0; ROOM + ROOM_OF_TICK * trace.len().min(MOST_TICKS)];
    let length = unsafe { linewatch_sheet(text.as_ptr(), text.len(), trace.as_ptr(), trace.len(), sheet.as_mut_ptr(), sheet.len()) };
    sheet.truncate(length);
    sheet
}

/// The trace of a list of words: their records, one behind the other.
pub fn trace(words: &[u64]) -> Vec<u8> {
    let mut trace = Vec::new();
    let mut before = 0;
    for &word in words {
        let mut record = [0; 9];
        let length = unsafe { linewatch_write_record(before, word, record.as_mut_ptr(), record.len()) };
        trace.extend_from_slice(&record[..length]);
        before = word;
    }
    trace
}

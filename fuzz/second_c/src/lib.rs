//! `second` for C: what the guided fuzzer (`fuzz/guided.c`) compares the line watch with.

/// The bytes of a range of C; one of length 0 may have a null pointer.
unsafe fn bytes<'a>(at: *const u8, length: usize) -> &'a [u8] {
    if length == 0 {
        return &[];
    }
    std::slice::from_raw_parts(at, length)
}

/// Writes the sheet that is right for a text and records, and returns its length; 0 if there is no room for it.
///
/// # Safety
/// The three ranges are as their pointers and lengths say, and the last one overlaps no other.
#[no_mangle]
pub unsafe extern "C" fn second_sheet(text: *const u8, text_length: usize, records: *const u8, records_length: usize, sheet: *mut u8, sheet_length: usize) -> usize {
    let right = second::sheet(bytes(text, text_length), bytes(records, records_length));
    if right.len() > sheet_length {
        return 0;
    }
    std::ptr::copy_nonoverlapping(right.as_ptr(), sheet, right.len());
    right.len()
}

/// How many letters a text has; 0 if it is refused.
///
/// # Safety
/// The range is as its pointer and length say.
#[no_mangle]
pub unsafe extern "C" fn second_letters(text: *const u8, text_length: usize) -> usize {
    second::open(bytes(text, text_length)).map_or(0, |program| program.letters() as usize)
}

/// Writes the record that is right for a word behind another, and returns its length.
///
/// # Safety
/// Nine bytes may be written at `out`.
#[no_mangle]
pub unsafe extern "C" fn second_record(before: u64, word: u64, out: *mut u8) -> usize {
    let room = std::slice::from_raw_parts_mut(out, second::record::LONGEST);
    second::record::write(before, word, room).expect("the longest record has room")
}

//! Wire records: a map byte, then only the changed bytes of the word.

use crate::refusal::{Reason, Refusal};

/// The longest record: the map and all eight bytes.
pub const LONGEST: usize = 9;

/// A record that was read.
#[derive(Clone, Copy, Debug, PartialEq, Eq)]
pub struct Record {
    pub word: u64,
    /// The byte behind the record, where the next one begins.
    pub end: usize,
}

/// Reads the record that begins at byte `begin`; `before` is the word before
/// it (zero before the first). At the very end there is none.
pub fn read(trace: &[u8], begin: usize, before: u64) -> Result<Option<Record>, Refusal> {
    let refuse = |reason| Err(Refusal::at_byte(reason, begin));
    if begin == trace.len() {
        return Ok(None);
    }
    let Some((&map, rest)) = trace.get(begin..).and_then(<[u8]>::split_first) else {
        return refuse(Reason::Torn);
    };
    let count = map.count_ones() as usize;
    let Some(changed) = rest.get(..count) else {
        return refuse(Reason::Torn);
    };
    let mut bytes = before.to_le_bytes();
    for (index, &byte) in bits(map).zip(changed) {
        if bytes[index] == byte {
            return refuse(Reason::IdleByte);
        }
        bytes[index] = byte;
    }
    Ok(Some(Record {
        word: u64::from_le_bytes(bytes),
        end: begin + 1 + count,
    }))
}

/// Writes the record that leads from the word `before` to `word` to the front
/// of `buffer`, and gives its length. Bytes behind it are untouched; so is all
/// of the buffer if it is too short.
pub fn write(before: u64, word: u64, buffer: &mut [u8]) -> Result<usize, Refusal> {
    let (old, new) = (before.to_le_bytes(), word.to_le_bytes());
    let mut record = [0; LONGEST];
    let mut length = 1;
    for index in 0..8 {
        if old[index] != new[index] {
            record[0] |= 1 << index;
            record[length] = new[index];
            length += 1;
        }
    }
    let Some(room) = buffer.get_mut(..length) else {
        return Err(Refusal::nowhere(Reason::ShortBin));
    };
    room.copy_from_slice(&record[..length]);
    Ok(length)
}

/// The numbers of the bits that stand in a map, lowest first.
fn bits(map: u8) -> impl Iterator<Item = usize> {
    (0..8).filter(move |bit| map >> bit & 1 == 1)
}

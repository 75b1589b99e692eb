//! Cases as programs hand them to each other: one stream carries cases, the
//! other an answer for each of them, in the same order.
//!
//! A number has 32 bits, lowest byte first, and a string is its length and its
//! bytes. A case is a byte for its kind, the number of its strings, and these
//! strings. The first of them lists requests and is of no use here: all that
//! are in force always are. An answer is a string.
//!
//! | kind | strings behind the first | answer |
//! |---|---|---|
//! | S | rule text, trace | the sheet |
//! | T | rule text, looks and takes in the form of `calls` | a line for each, and the totals |

use std::io::{self, BufRead, Read, Write};

use crate::{answer_calls, sheet};

/// A case: what is asked, and of what.
#[derive(Clone, Debug, PartialEq, Eq)]
pub struct Case {
    pub kind: u8,
    pub strings: Vec<Vec<u8>>,
}

impl Case {
    /// The case at the front of a stream.
    pub fn read(from: &mut impl Read) -> io::Result<Case> {
        let kind = read_bytes(from, 1)?[0];
        let count = read_number(from)?;
        let mut strings = Vec::new();
        for _ in 0..count {
            strings.push(read_string(from)?);
        }
        Ok(Case { kind, strings })
    }

    pub fn write(&self, to: &mut impl Write) -> io::Result<()> {
        to.write_all(&[self.kind])?;
        write_number(to, self.strings.len())?;
        for string in &self.strings {
            write_string(to, string)?;
        }
        Ok(())
    }

    /// The answer; for a kind not known, or with other strings than its kind
    /// has, or with calls that cannot be read, an error that says so.
    pub fn answer(&self) -> io::Result<Vec<u8>> {
        match (self.kind, self.strings.as_slice()) {
            (b'S', [_, text, trace]) => Ok(sheet(text, trace)),
            (b'T', [_, text, calls]) => answer_calls(text, calls)
                .ok_or_else(|| invalid("a call is cut short, or neither look nor take")),
            (kind, strings) => Err(invalid(format!(
                "no case of kind {} with {} strings is known",
                kind.escape_ascii(),
                strings.len()
            ))),
        }
    }
}

/// Answers each case as it comes, until there are no more.
pub fn answer_all(from: &mut impl BufRead, to: &mut impl Write) -> io::Result<()> {
    while !at_end(from)? {
        let answer = Case::read(from)?.answer()?;
        write_string(to, &answer)?;
        to.flush()?;
    }
    Ok(())
}

/// Whether a stream has nothing more to read.
pub fn at_end(from: &mut impl BufRead) -> io::Result<bool> {
    Ok(from.fill_buf()?.is_empty())
}

/// The string at the front of a stream.
pub fn read_string(from: &mut impl Read) -> io::Result<Vec<u8>> {
    read_string_up_to(u32::MAX, from)
}

/// The string at the front of a stream; an error if it has over `most` bytes.
pub fn read_string_up_to(most: u32, from: &mut impl Read) -> io::Result<Vec<u8>> {
    let length = read_number(from)?;
    if length > most {
        return Err(invalid(format!("a string of {length} bytes")));
    }
    read_bytes(from, length)
}

pub fn write_string(to: &mut impl Write, string: &[u8]) -> io::Result<()> {
    write_number(to, string.len())?;
    to.write_all(string)
}

fn read_number(from: &mut impl Read) -> io::Result<u32> {
    let bytes = read_bytes(from, 4)?;
    Ok(u32::from_le_bytes([bytes[0], bytes[1], bytes[2], bytes[3]]))
}

fn write_number(to: &mut impl Write, number: usize) -> io::Result<()> {
    let number = u32::try_from(number).map_err(|_| invalid("a number of over 32 bits"))?;
    to.write_all(&number.to_le_bytes())
}

/// The next `length` bytes. Room is made as they come, not for what a length
/// promises.
fn read_bytes(from: &mut impl Read, length: u32) -> io::Result<Vec<u8>> {
    let mut bytes = Vec::new();
    let read = from.take(u64::from(length)).read_to_end(&mut bytes)?;
    if read as u64 != u64::from(length) {
        return Err(io::Error::new(io::ErrorKind::UnexpectedEof, "cut short"));
    }
    Ok(bytes)
}

fn invalid(what: impl Into<String>) -> io::Error {
    io::Error::new(io::ErrorKind::InvalidData, what.into())
}

#[cfg(test)]
mod tests {
    use super::*;

    const TEXT: &[u8] = b"input a; p -> a; monitor p;";
    const SHEET: &[u8] = b"rows 1 letters 1\n0 0000000000000001 ok\nclean 1\nmet 0 0 1\ntotal 1\n";

    fn case(kind: u8, strings: &[&[u8]]) -> Case {
        Case {
            kind,
            strings: strings.iter().map(|string| string.to_vec()).collect(),
        }
    }

    fn written(case: &Case) -> Vec<u8> {
        let mut bytes = Vec::new();
        case.write(&mut bytes).unwrap();
        bytes
    }

    #[test]
    fn what_is_written_is_read() {
        let bytes = written(&case(b'S', &[b"2", b"", b"abc"]));
        let expected = b"S\x03\0\0\0\x01\0\0\x002\0\0\0\0\x03\0\0\0abc";
        assert_eq!(bytes, expected);
        let read = Case::read(&mut bytes.as_slice()).unwrap();
        assert_eq!(read, case(b'S', &[b"2", b"", b"abc"]));
    }

    #[test]
    fn a_case_cut_anywhere_is_not_read() {
        let bytes = written(&case(b'S', &[b"2", b"text", b"trace"]));
        for cut in 0..bytes.len() {
            assert!(Case::read(&mut &bytes[..cut]).is_err(), "cut at {cut}");
        }
    }

    #[test]
    fn each_case_has_its_answer() {
        let good = written(&case(b'S', &[b"2", TEXT, &[1, 1]]));
        let empty = written(&case(b'S', &[b"", b"", b""]));
        let mut answers = Vec::new();
        answer_all(&mut [good, empty].concat().as_slice(), &mut answers).unwrap();
        let mut rest = answers.as_slice();
        assert_eq!(read_string(&mut rest).unwrap(), SHEET);
        assert_eq!(read_string(&mut rest).unwrap(), b"refused 3 0\n");
        assert!(rest.is_empty());
    }

    #[test]
    fn kinds_not_known_and_other_strings_have_no_answer() {
        assert!(case(b'?', &[b"2", TEXT, b""]).answer().is_err());
        assert!(case(b's', &[b"2", TEXT, b""]).answer().is_err());
        assert!(case(b'S', &[b"2", TEXT]).answer().is_err());
        assert!(case(b'S', &[b"2", TEXT, b"", b""]).answer().is_err());
        assert!(case(b'S', &[]).answer().is_err());
        assert!(case(b'T', &[b"4", TEXT]).answer().is_err());
        assert!(case(b'T', &[b"4", TEXT, b"", b""]).answer().is_err());
    }

    #[test]
    fn calls_are_answered_if_they_can_be_read() {
        let answer = |calls| case(b'T', &[b"4", TEXT, calls]).answer();
        let expected = b"rows 1 letters 1\nlook ok\nmet 0 0 0\ntotal 0\n";
        assert_eq!(answer(b"L\x01\0\0\0\0\0\0\0").unwrap(), expected);
        assert!(answer(b"L\x01\0\0\0\0\0\0").is_err());
        assert!(answer(b"S\x01\0\0\0\0\0\0\0").is_err());
    }
}

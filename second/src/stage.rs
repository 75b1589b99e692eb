//! Stage files: cases with their right answers, to be put to this
//! implementation or to another program.
//!
//! A file is a row of entries. An entry is a string, the case's name, then the
//! case, then a string, its right answer; `batch` says what these look like.

use std::ffi::{OsStr, OsString};
use std::io::{self, BufRead, BufReader, Write};
use std::process::{Child, ChildStdin, Command, Stdio};

use crate::batch::{at_end, read_string, read_string_up_to, Case};
use crate::cases::Difference;

/// No answer has more bytes. A program that prints plain text instead of
/// answers is found out at once, as its first four bytes promise more.
const LONGEST_ANSWER: u32 = 1 << 26;

/// One entry of a file.
#[derive(Clone, Debug, PartialEq, Eq)]
pub struct Entry {
    pub name: String,
    pub case: Case,
    pub answer: Vec<u8>,
}

impl Entry {
    /// Compares an answer that came with the right one.
    pub fn compare(&self, came: Vec<u8>) -> Option<Difference> {
        (came != self.answer).then(|| Difference {
            name: self.name.clone(),
            expected: self.answer.clone(),
            came,
        })
    }
}

/// All entries of a file; an error if the file is cut short.
pub fn read(file: &[u8]) -> io::Result<Vec<Entry>> {
    let mut rest = file;
    let mut entries = Vec::new();
    while !rest.is_empty() {
        entries.push(Entry {
            name: String::from_utf8_lossy(&read_string(&mut rest)?).into_owned(),
            case: Case::read(&mut rest)?,
            answer: read_string(&mut rest)?,
        });
    }
    Ok(entries)
}

/// The entries whose case is of this kind, in their order.
pub fn of_kind(kind: u8, entries: Vec<Entry>) -> Vec<Entry> {
    let is_one = |entry: &Entry| entry.case.kind == kind;
    entries.into_iter().filter(is_one).collect()
}

/// What a program said when the cases of some entries were put to it.
#[derive(Clone, Debug, PartialEq, Eq)]
pub struct Said {
    /// Its answers in order, no more than there are cases.
    pub answers: Vec<Vec<u8>>,
    /// What it did wrong besides answering wrongly or too little.
    pub fault: Option<String>,
}

/// Runs a program, puts all cases to it and takes its answers meanwhile. An
/// error means that it could not be run.
pub fn ask(program: &OsStr, arguments: &[OsString], entries: &[Entry]) -> io::Result<Said> {
    let cases = all_cases(entries)?;
    let mut child = Command::new(program)
        .args(arguments)
        .stdin(Stdio::piped())
        .stdout(Stdio::piped())
        .spawn()?;
    feed(child.stdin.take().expect("it is piped"), cases);
    let answers = BufReader::new(child.stdout.take().expect("it is piped"));
    let mut said = listen(answers, entries.len());
    let ending = end(child, said.fault.is_some())?;
    said.fault = said.fault.or(ending);
    Ok(said)
}

/// The cases of all entries as one stream.
fn all_cases(entries: &[Entry]) -> io::Result<Vec<u8>> {
    let mut cases = Vec::new();
    for entry in entries {
        entry.case.write(&mut cases)?;
    }
    Ok(cases)
}

/// Hands over the cases and closes the stream, beside whatever else is done: a
/// program may wait for its answers to be read before it reads on. If it
/// leaves cases unread, answers will be missing; nothing is said here.
fn feed(mut to: ChildStdin, cases: Vec<u8>) {
    std::thread::spawn(move || to.write_all(&cases));
}

/// Takes answers until they end, or are at fault.
fn listen(mut from: impl BufRead, most: usize) -> Said {
    let mut answers = Vec::new();
    let fault = loop {
        match next_answer(&mut from) {
            Ok(None) => break None,
            Ok(Some(_)) if answers.len() == most => {
                break Some(String::from("more answers than cases"))
            }
            Ok(Some(answer)) => answers.push(answer),
            Err(error) => break Some(format!("answer {}: {error}", answers.len())),
        }
    };
    Said { answers, fault }
}

/// The next answer, if there is one more.
fn next_answer(from: &mut impl BufRead) -> io::Result<Option<Vec<u8>>> {
    if at_end(from)? {
        return Ok(None);
    }
    read_string_up_to(LONGEST_ANSWER, from).map(Some)
}

/// Waits for the end of a program, which is not left to itself if it was at
/// fault; says if it ended badly.
fn end(mut child: Child, at_fault: bool) -> io::Result<Option<String>> {
    if at_fault {
        child.kill()?;
    }
    let status = child.wait()?;
    Ok((!status.success()).then(|| status.to_string()))
}

#[cfg(test)]
mod tests {
    use super::*;

    /// The bytes of strings, each behind its length.
    fn strings(strings: &[&[u8]]) -> Vec<u8> {
        let mut bytes = Vec::new();
        for string in strings {
            crate::batch::write_string(&mut bytes, string).unwrap();
        }
        bytes
    }

    fn entry() -> Vec<u8> {
        entry_of(b'S', b"name")
    }

    fn entry_of(kind: u8, name: &[u8]) -> Vec<u8> {
        let count = vec![kind, 3, 0, 0, 0];
        let case = [count, strings(&[b"2", b"text", b"trace"])].concat();
        [strings(&[name]), case, strings(&[b"answer"])].concat()
    }

    #[test]
    fn entries_stand_one_after_another() {
        let entries = read(&[entry(), entry()].concat()).unwrap();
        assert_eq!(entries.len(), 2);
        assert_eq!(entries[1].name, "name");
        assert_eq!(entries[1].case.kind, b'S');
        assert_eq!(entries[1].case.strings[2], b"trace");
        assert_eq!(entries[1].answer, b"answer");
        assert_eq!(read(b"").unwrap(), []);
    }

    #[test]
    fn entries_of_a_kind_keep_their_order() {
        let file = [
            entry_of(b'S', b"one"),
            entry_of(b'T', b"two"),
            entry_of(b'S', b"three"),
        ];
        let entries = read(&file.concat()).unwrap();
        let names = |kind| -> Vec<String> {
            let chosen = of_kind(kind, entries.clone());
            chosen.into_iter().map(|entry| entry.name).collect()
        };
        assert_eq!(names(b'S'), ["one", "three"]);
        assert_eq!(names(b'T'), ["two"]);
        assert!(names(b's').is_empty());
    }

    #[test]
    fn a_file_cut_anywhere_within_an_entry_is_not_read() {
        let file = entry();
        for cut in 1..file.len() {
            assert!(read(&file[..cut]).is_err(), "cut at {cut}");
        }
    }

    #[test]
    fn answers_are_taken_up_to_the_number_of_cases() {
        let answers = strings(&[b"one", b"", b"three"]);
        let three = vec![b"one".to_vec(), b"".to_vec(), b"three".to_vec()];
        let said = listen(answers.as_slice(), 4);
        assert_eq!((&said.answers, said.fault), (&three, None));
        let said = listen(answers.as_slice(), 3);
        assert_eq!((&said.answers, said.fault), (&three, None));
        let said = listen(answers.as_slice(), 2);
        assert_eq!(said.answers, three[..2]);
        assert_eq!(said.fault.as_deref(), Some("more answers than cases"));
    }

    #[test]
    fn plain_text_is_no_answer() {
        let said = listen(&b"\n\n\n\n and more"[..], 2);
        assert_eq!(said.answers.len(), 0);
        let fault = "answer 0: a string of 168430090 bytes";
        assert_eq!(said.fault.as_deref(), Some(fault));
    }

    #[test]
    fn an_answer_cut_short_is_a_fault() {
        let answers = strings(&[b"one", b"two"]);
        for cut in [8, 10, 13] {
            let said = listen(&answers[..cut], 2);
            assert_eq!(said.answers, [b"one"]);
            assert_eq!(said.fault.as_deref(), Some("answer 1: cut short"));
        }
    }
}

//! Case files: a row of cases, each of four byte strings (name, rule text,
//! trace, right sheet), each string behind its 32-bit little-endian length.

use crate::sheet;

/// One case of a file.
#[derive(Clone, Copy, Debug, PartialEq, Eq)]
pub struct Case<'f> {
    pub name: &'f [u8],
    pub text: &'f [u8],
    pub trace: &'f [u8],
    pub sheet: &'f [u8],
}

/// A case whose sheet came out otherwise.
#[derive(Clone, Debug, PartialEq, Eq)]
pub struct Difference {
    pub name: String,
    pub expected: Vec<u8>,
    pub came: Vec<u8>,
}

impl Case<'_> {
    /// Computes the sheet and compares it with the right one.
    pub fn check(&self) -> Option<Difference> {
        let came = sheet(self.text, self.trace);
        (came != self.sheet).then(|| Difference {
            name: String::from_utf8_lossy(self.name).into_owned(),
            expected: self.sheet.to_vec(),
            came,
        })
    }
}

/// All cases of a file; none if the file is cut short.
pub fn read(file: &[u8]) -> Option<Vec<Case<'_>>> {
    let mut rest = file;
    let mut cases = Vec::new();
    while !rest.is_empty() {
        cases.push(Case {
            name: take_string(&mut rest)?,
            text: take_string(&mut rest)?,
            trace: take_string(&mut rest)?,
            sheet: take_string(&mut rest)?,
        });
    }
    Some(cases)
}

/// Takes a length and as many bytes from the front of `rest`.
fn take_string<'f>(rest: &mut &'f [u8]) -> Option<&'f [u8]> {
    let (length, behind) = rest.split_first_chunk::<4>()?;
    let length = usize::try_from(u32::from_le_bytes(*length)).ok()?;
    let string = behind.get(..length)?;
    *rest = &behind[length..];
    Some(string)
}

#[cfg(test)]
mod tests {
    use super::*;

    fn file(strings: &[&[u8]]) -> Vec<u8> {
        let mut file = Vec::new();
        for string in strings {
            file.extend((string.len() as u32).to_le_bytes());
            file.extend(*string);
        }
        file
    }

    #[test]
    fn right_and_wrong_sheets_are_told_apart() {
        let text: &[u8] = b"input a; p -> a; monitor p;";
        let right: &[u8] =
            b"rows 1 letters 1\n0 0000000000000001 ok\nclean 1\nmet 0 0 1\ntotal 1\n";
        let file = file(&[b"good", text, &[1, 1], right, b"other", text, &[0], right]);
        let cases = read(&file).unwrap();
        assert_eq!(cases.len(), 2);
        assert_eq!(cases[0].check(), None);
        let difference = cases[1].check().unwrap();
        assert_eq!(difference.name, "other");
        assert_eq!(difference.expected, right);
        assert_eq!(
            difference.came,
            b"rows 1 letters 1\n0 0000000000000000 bad 0\nmet 0 0 0\ntotal 0\n"
        );
    }

    #[test]
    fn a_file_cut_anywhere_within_a_case_is_not_read() {
        let file = file(&[b"name", b"text", b"trace", b"sheet"]);
        for cut in 1..file.len() {
            assert_eq!(read(&file[..cut]), None, "cut at {cut}");
        }
        assert_eq!(read(&file).unwrap().len(), 1);
        assert_eq!(read(b"").unwrap().len(), 0);
    }
}
